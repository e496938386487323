#!/usr/bin/env python3
"""What other scripts ask about rt, the command of the kit, in this copy of the repository.

  scripts/kit.py free [MINUTES]   waits until no other rt works here, and says what it waits for; by default at most 30 minutes
  scripts/kit.py keep             after an `rt ci` that passed: marks what it built, so that rt does not prove it once more
  scripts/kit.py tests CRATE      fails unless `keep` marked the program of the tests of this crate, and its sources are the same
  scripts/kit.py layout           fails if a file of the crates is not in the layout of `rt fmt`
  scripts/kit.py over LIB,.. CRATE [FUNCTION ...]
                                  checks functions of a crate over the sources of these libraries, which need no proof yet
  scripts/kit.py rt WORD ...      does what `rt WORD ...` does, and reads the sources of each crate once

free: two rt in one copy wait for each other, without a limit, and in a script the message of rt is in a log. So scripts that call
rt call this first. It changes nothing. The status is 0 once the copy is free, and 1 if it gave up.

keep: `rt ci` leaves the built files in crates/*/out, without the marks by which `rt lib` and `rt run` recognise a built library or
program. The marks are sums over the sources of a crate and of all crates below it, so a crate is built again as soon as one of these
changes. Never call it after anything else than an `rt ci` that passed. If the toolchain keeps its marks in another way, nothing is
written, and rt proves the crates again. The status is 0 either way.

layout: changes nothing, proves nothing, and takes half a minute. The last line says what passed.

over: while a change is under way in a library, the crates above it can be tried at once. The other libraries below the crate must be
built (crates/*/out/rlib). Functions are paths or parts of them; without any, the whole crate is checked, and the libraries too, which
takes long. It gives no verdict: a library whose contract nobody meets passes as well. The status is that of `rattle check`.

rt: a kit may compute the mark of a crate once for each path to it in crates.txt. From codec_payload_c there are 19,000 paths, so that
`rt lib` takes 15 minutes there with nothing to build (kit 13b, 2026-11-30). This command computes each mark once. Edit nothing while
it runs. If rt cannot be loaded, it runs as it is. The status is that of rt.
"""
import fcntl
import filecmp
import glob
import importlib.machinery
import importlib.util
import os
import shutil
import subprocess
import sys
import tempfile
import time

ROOT = os.path.dirname(os.path.dirname(os.path.realpath(__file__)))
PAUSE = 2  # seconds between two tries
MODULE = "rtlib"


def locks():
    """What rt locks here: the folders of crates, and a file for `rt ci`."""
    git = subprocess.run(["git", "rev-parse", "--absolute-git-dir"], cwd=ROOT, capture_output=True, text=True, check=False).stdout.strip()
    return sorted(glob.glob(f"{ROOT}/crates/*/")) + [it for it in [f"{git}/rt-ci.lock"] if os.path.isfile(it)]


def is_held(path):
    place = os.open(path, os.O_RDONLY)
    try:
        fcntl.flock(place, fcntl.LOCK_EX | fcntl.LOCK_NB)
    except BlockingIOError:
        return True
    except OSError:  # some file systems have no locks
        return False
    finally:
        os.close(place)
    return False


def holder(path):
    """The process that holds the lock, if the system shows it."""
    try:
        with open("/proc/locks", encoding="ascii") as lines:
            of_file = [it.split()[4] for it in lines if "FLOCK" in it and "->" not in it and it.split()[5].endswith(f":{os.stat(path).st_ino}")]
    except OSError:
        of_file = []
    return f", process {of_file[0]}," if of_file else ""


def wait_until_free(minutes=30):
    """0 once no other rt works in this copy, 1 if one still does after that many minutes."""
    until = time.monotonic() + 60 * minutes
    reported = None
    while held := next((it for it in locks() if is_held(it)), None):
        if held != reported:
            print(f"another rt{holder(held)} works in {os.path.relpath(held, ROOT)}: waiting for it, at most {minutes:g} minutes", flush=True)
            reported = held
        if time.monotonic() >= until:
            print(f"gave up after {minutes:g} minutes: another rt still works in {os.path.relpath(held, ROOT)}")
            return 1
        time.sleep(PAUSE)
    return 0


def toolchain():
    """The module of the toolchain that rt itself builds by, or None."""
    first_page = subprocess.run(["rt", "doc"], capture_output=True, text=True, check=True).stdout.strip()
    folder = os.path.join(os.path.dirname(first_page), "bin")
    if not os.path.isfile(os.path.join(folder, f"{MODULE}.py")):
        return None
    sys.path.insert(0, folder)
    sys.dont_write_bytecode = True
    return with_marks_once(__import__(MODULE))


def with_marks_once(rtlib):
    """The module, with the mark of each crate computed once, and the list of the crates below it."""

    def once(method):
        found = {}

        def answer(crate):
            if crate.folder not in found:
                found[crate.folder] = method(crate)
            return found[crate.folder]

        return answer

    below = once(rtlib.Crate.below)
    rtlib.Crate.stamp = once(rtlib.Crate.stamp)
    rtlib.Crate.below = lambda crate: list(below(crate))
    return rtlib


def run_rt(words):
    """rt with these words."""
    program = shutil.which("rt")
    if program is None:
        print("rt is not there", file=sys.stderr)
        return 2
    try:
        sys.dont_write_bytecode = True
        loader = importlib.machinery.SourceFileLoader("rt", os.path.realpath(program))
        rt = importlib.util.module_from_spec(importlib.util.spec_from_loader("rt", loader))
        loader.exec_module(rt)
        with_marks_once(rt.rtlib)
    except (AttributeError, OSError, SyntaxError, ValueError):
        return subprocess.run([program, *words], check=False).returncode
    return rt.main(words)


def mark_of(crate, rtlib):
    """The place of the mark of a built crate, and its text; None if the crate is not built."""
    out = os.path.join(crate.folder, "out")
    if crate.is_program:
        program = os.path.join(out, crate.name)
        return (f"{program}.stamp", crate.stamp() + rtlib.sum_of(program)) if os.path.isfile(program) else None
    return (os.path.join(out, "rlib", "stamp"), crate.stamp()) if os.path.isdir(crate.rlib) else None


def mark_of_tests(crate, rtlib):
    """The place of the mark of the proved tests of a crate, and its text; None if they are not built."""
    program = os.path.join(crate.folder, "out", f"{crate.name}_tests")
    return (f"{program}.kept", crate.stamp() + rtlib.sum_of(program)) if os.path.isfile(program) else None


def has_tests(name):
    """0 if the program of the tests of a crate is the one that `keep` marked."""
    rtlib = toolchain()
    crate = next((it for it in rtlib.crates_below(ROOT) if it.name == name), None) if rtlib else None
    mark = crate and mark_of_tests(crate, rtlib)
    if not mark or not os.path.isfile(mark[0]):
        return 1
    with open(mark[0], encoding="utf-8") as file:
        return 0 if file.read() == mark[1] else 1


def keep_proved():
    """Writes the marks, or says why not."""
    try:
        rtlib = toolchain()
        if rtlib is None:
            print("nothing kept: rt will prove again what it needs")
            return
        os.chdir(ROOT)
        crates = rtlib.crates_below(ROOT)
        marks = [mark for crate in crates for mark in (mark_of(crate, rtlib), mark_of_tests(crate, rtlib)) if mark]
        for path, text in marks:
            with open(path, "w", encoding="utf-8") as file:
                file.write(text)
        print(f"{len(marks)} libraries, programs and tests kept")
    except (AttributeError, OSError, subprocess.CalledProcessError) as fault:
        print(f"nothing kept ({fault}): rt will prove again what it needs")


def libraries():
    """The libraries of each crate, as crates.txt names them."""
    with open(f"{ROOT}/crates.txt", encoding="utf-8") as file:
        lines = [line.split("#")[0].split(":") for line in file if ":" in line.split("#")[0]]
    return {name.split()[0]: used.split() for name, used in lines}


def below(crate, uses):
    """The crates below a crate."""
    found, waiting = set(), [crate]
    while waiting:
        for it in uses.get(waiting.pop(), []):
            if it in uses and it not in found:
                found.add(it)
                waiting.append(it)
    return found


def check_over(sources, crate, functions):
    """Checks functions of a crate over these libraries as sources."""
    uses = libraries()
    kit = os.path.dirname(subprocess.run(["rt", "doc"], capture_output=True, text=True, check=True).stdout.strip())
    named = {"std", *uses[crate], *(it for source in sources for it in uses[source])} - set(sources)
    built = {it: f"{ROOT}/crates/{it}/out/rlib" for it in below(crate, uses) - set(sources)}
    words = [f"{kit}/bin/rattle", "check", "--crate-name", crate, "src/lib.rt"]
    for it in sorted(named):
        words += ["--extern", f"{it}={built[it] if it in built else f'{kit}/rlibs'}/{it}.rlib"]
    for folder in [f"{kit}/rlibs", *sorted(built.values())]:
        words += ["-L", f"dependency={folder}"]
    for it in sources:
        words += ["--lib", f"{it}={ROOT}/crates/{it}/src/lib.rt"]
    words += ["--antt-project", f"{kit}/rattle/logic/antt-project.json", "--logic-built", f"{kit}/logic_built", "--links", f"{crate}="]
    words += ["--incremental", "out/incremental", *(it for function in functions for it in ("--only", function))]
    os.makedirs(f"{ROOT}/crates/{crate}/out/incremental", exist_ok=True)
    return subprocess.run(words, cwd=f"{ROOT}/crates/{crate}", check=False).returncode


def check_layout():
    """0 if `rt fmt` changes nothing in a copy of the crates."""
    with tempfile.TemporaryDirectory() as work:
        for name in ("crates.txt", "HANDLES"):
            shutil.copy(f"{ROOT}/{name}", work)
        shutil.copytree(f"{ROOT}/crates", f"{work}/crates", ignore=shutil.ignore_patterns("out"))
        for crate in sorted(glob.glob(f"{work}/crates/*/")):
            ran = subprocess.run(["rt", "fmt"], cwd=crate, stdout=subprocess.PIPE, stderr=subprocess.STDOUT, text=True, check=False)
            if ran.returncode:
                print(ran.stdout)
                return 1
        files = [it for it in glob.glob("crates/**/*", root_dir=work, recursive=True) if it.endswith((".rt", ".antt"))]
        differ = sorted(it for it in files if not filecmp.cmp(f"{work}/{it}", f"{ROOT}/{it}", shallow=False))
    for it in differ:
        print(f"{it} is not in the layout of rt fmt")
    if not differ:
        print(f"layout: {len(files)} files, all in the layout of rt fmt")
    return 1 if differ else 0


def main(words):
    if words[:1] == ["free"] and len(words) <= 2:
        return wait_until_free(*map(float, words[1:]))
    if words == ["keep"]:
        return keep_proved()
    if words[:1] == ["tests"] and len(words) == 2:
        return has_tests(words[1])
    if words == ["layout"]:
        return check_layout()
    if words[:1] == ["over"] and len(words) >= 3:
        return check_over(words[1].split(","), words[2], words[3:])
    if words[:1] == ["rt"] and len(words) >= 2:
        return run_rt(words[1:])
    print("usage: scripts/kit.py free [MINUTES] | keep | tests CRATE | layout | over LIB,.. CRATE [FUNCTION ...] | rt WORD ...", file=sys.stderr)
    return 2


if __name__ == "__main__":
    sys.exit(main(sys.argv[1:]))
