#!/usr/bin/env python3
"""Makes the files of c/generated, the library for C as assembly for each target, from the proved crates.

  scripts/assembly.py          proves the crates that are not proved yet, and writes all files
  scripts/assembly.py NAME..   writes the files of these targets: x86_64-linux, aarch64-linux, x86_64-windows, x86_64-macos, aarch64-macos
  scripts/assembly.py check    fails if the sources changed since the files were made; then, with the kit that made them, makes them
                               again and compares each byte. With another kit, or without one, it says that it did not
  scripts/assembly.py sources  the first step of `check` alone

The kit's compiler passes its clang one LLVM module for codec_payload_c with all crates below it, once the prover has said
`logic=proved`; an unproved crate gives no module. There is one module for each processor, and a file for each system is made from
it. The kit's clang makes the assembly, with the options by which it makes the proved archive, and one more: functions of the same
code become one. A type parameter of two crates is two functions, such as the receiver of a session and the receiver of a stream.
Three things are added to the module's text: exports are called proved_cpay_* and are hidden, indirect branches are protected on Linux
(CET and BTI with signed return addresses), and so are the notes that say it. The code runs on every processor of its architecture.

For Windows and macOS the module gets the system's target and layout of data, and functions get data for unwinding. On Windows nothing is kept
below the stack pointer (`noredzone`), exports have the convention of Windows, and results of 16 bytes come back through a pointer, as
C has them there. On AArch64 the register x18 belongs to Apple's systems (`+reserve-x18`).

The head of each file names the kit and has a checksum of the sources, without their comments: of codec_payload_c and all crates
below it. Needs the kit, except for the first step of `check`, and about a minute for each file over proved crates.
"""
import hashlib
import os
import re
import shutil
import subprocess
import sys
import tempfile

ROOT = os.path.dirname(os.path.dirname(os.path.realpath(__file__)))
TOP = "codec_payload_c"
FOLDER = "c/generated"
LINUX_X86_64, LINUX_AARCH64 = ("x86_64-unknown-linux-gnu", "x86-64"), ("aarch64-unknown-linux-gnu", "generic")
CET = {"cf-protection-branch": 1, "cf-protection-return": 1}
BTI = {"branch-target-enforcement": 1, "sign-return-address": 1, "sign-return-address-all": 0, "sign-return-address-with-bkey": 0}
SIGNED = '"branch-target-enforcement" "sign-return-address"="non-leaf" "sign-return-address-key"="a_key" '
RESERVED = '"target-features"="+reserve-x18" '
# For each file: the module of the kit that it is made from (its target and processor), the target of the code, the flags of the module,
# and the attributes of functions.
TARGETS = {
    "x86_64-linux": (LINUX_X86_64, LINUX_X86_64[0], CET, ""),
    "aarch64-linux": (LINUX_AARCH64, LINUX_AARCH64[0], BTI, SIGNED),
    "x86_64-windows": (LINUX_X86_64, "x86_64-w64-windows-gnu", {}, "noredzone uwtable "),
    "x86_64-macos": (LINUX_X86_64, "x86_64-apple-macosx11.0", {}, "uwtable "),
    "aarch64-macos": (LINUX_AARCH64, "arm64-apple-macosx11.0", {}, f"uwtable {RESERVED}"),
}
# Options by which the kit's clang is called and that other systems do not have.
LINUX_ONLY = ("-fPIC", "--sysroot=")
# The functions of c/src/memory.c whose results have 16 bytes: their parameters.
BY_POINTER = {"rattle_alloc": ["i64", "i64"], "rattle_realloc": ["ptr", "i64", "i64", "i64"]}
# What the functions of compilers are called on Windows: Microsoft's probe of the stack has another name than GCC's, and a division of 128
# bits is in c/src/wide.c, since Microsoft's compiler has none.
WINDOWS_HEAD = ["#ifndef __MINGW32__", "#define ___chkstk_ms __chkstk", "#endif", "#define __udivti3 rattle_wide_quotient"]
# Comments; before them, text that may contain two slashes and is not a comment.
COMMENT = re.compile(r'("(?:[^"\\]|\\.)*"|\'(?:[^\'\\\n]|\\.)\')|//[^\n]*')
# What the assembler of binutils does not know, or did not until lately: hints to LLVM's linker, the notes' values once more, and on Windows
# the ends of functions, which data for unwinding may leave out.
UNKNOWN = ("\t.addrsig", "\t.aeabi_", "\t.seh_startepilogue", "\t.seh_endepilogue")
STAND_IN = """\
#!/bin/sh
PATH=/usr/bin:/bin
case " $* " in
*" -c "*)
    for word; do
        case $word in
        *.bc | *.ll) cp "$word" "{room}/input" ;;
        esac
    done
    printf '%s\\n' "$@" >"{room}/words"
    ;;
esac
exec {clang} "$@"
"""


def stop(why):
    print(f"assembly: {why}", file=sys.stderr)
    sys.exit(1)


def read(path):
    with open(path, encoding="utf-8") as it:
        return it.read()


def crates():
    """The libraries of the repository that each crate names."""
    rows = [line.split("#")[0] for line in read(f"{ROOT}/crates.txt").splitlines()]
    named = {row.split(":")[0].split()[0]: row.split(":")[1].split() for row in rows if ":" in row}
    return {name: [it for it in uses if it in named] for name, uses in named.items()}


def below(name, uses):
    """That crate and all below it, by name."""
    found = {name}
    for one in uses[name]:
        found |= below(one, uses)
    return found


def sum_of_sources():
    """A checksum of what the code of the library is made from, without comments and layout."""
    found = hashlib.sha256()
    for name in sorted(below(TOP, crates())):
        for folder, _, files in sorted(os.walk(f"{ROOT}/crates/{name}/src")):
            for file in sorted(it for it in files if it.endswith(".rt")):
                text = " ".join(COMMENT.sub(r"\1", read(f"{folder}/{file}")).split())
                found.update(f"{name}/{file} {text}\n".encode())
    return found.hexdigest()


def ran(words, folder, why):
    """The output of a command whose status was 0."""
    done = subprocess.run(words, cwd=folder, stdout=subprocess.PIPE, stderr=subprocess.STDOUT, text=True, errors="replace")
    if done.returncode:
        stop(f"{why}\n{done.stdout[-4000:]}")
    return done.stdout


def kit():
    """The folder and the name of the kit; None without a kit."""
    if not shutil.which("rt"):
        return None, None
    page = ran(["rt", "doc"], ROOT, "rt says no first page").strip()
    return os.path.dirname(page), ran(["rt", "version"], ROOT, "rt says no version").split()[0]


def module_of(of, folder, room):
    """Has the kit prove codec_payload_c and build it for a target and processor: its verdict, the text of the module that its clang is
    given, and the words by which clang is called."""
    target, processor = of
    os.makedirs(f"{room}/bin")
    for tool in ("ld.lld", "llvm-ar", "rattle-x64"):
        os.symlink(f"{folder}/toolchain/bin/{tool}", f"{room}/bin/{tool}")
    os.symlink(f"{folder}/toolchain/lib", f"{room}/lib")
    with open(f"{room}/bin/clang", "w", encoding="utf-8") as it:
        it.write(STAND_IN.format(room=room, clang=f"{folder}/toolchain/bin/clang"))
    os.chmod(f"{room}/bin/clang", 0o755)
    uses, crate = crates(), f"{ROOT}/crates/{TOP}"
    words = [f"{folder}/bin/rattle", "build", "--crate-name", TOP, "src/lib.rt", "--crate-type", "staticlib"]
    for one in uses[TOP]:
        words += ["--extern", f"{one}={ROOT}/crates/{one}/out/rlib/{one}.rlib"]
    for one in ("core", "std", "std_alloc", "std_heap"):
        words += ["--extern", f"{one}={folder}/rlibs/{one}.rlib"]
    for one in sorted(below(TOP, uses) - {TOP}):
        words += ["-L", f"dependency={ROOT}/crates/{one}/out/rlib"]
    words += ["-L", f"dependency={folder}/rlibs", "--antt-project", f"{folder}/rattle/logic/antt-project.json"]
    words += ["--logic-built", f"{folder}/logic_built", "--incremental", f"{crate}/out/incremental", "--links", f"{TOP}="]
    words += ["--toolchain", room, "--backend", "llvm", "--target", target, "--cpu", processor, "-o", f"{room}/library.a"]
    said = ran(words, crate, f"{TOP} is not built for {target}")
    verdict = re.search(r"^logic=proved .*$", said, re.M)
    if not verdict or not os.path.isfile(f"{room}/input"):
        stop(f"{TOP} is not proved for {target}:\n{said[-4000:]}")
    ran([f"{folder}/toolchain/bin/clang", f"--target={target}", "-Xclang", "-disable-llvm-passes", "-S", "-emit-llvm", "-x", "ir", "input",
         "-o", "module.ll"], room, "the module cannot be read")
    return verdict[0], read(f"{room}/module.ll"), read(f"{room}/words").splitlines()


def named_anew(text):
    """The text of a module whose exports have other names and are hidden."""
    if "!llvm.module.flags" in text:
        stop("the module has flags of its own, and this script knows none")
    text, count = re.subn(r"^define (.*?)@(cpay_\w+)\(", r"define hidden \1@proved_\2(", text, flags=re.M)
    exports = set(re.findall(r"fn (cpay_\w+)\(", "".join(read(f"{ROOT}/crates/{TOP}/src/{it}")
                                                         for it in os.listdir(f"{ROOT}/crates/{TOP}/src"))))
    if count != len(exports) or re.search(r"@cpay_", text):
        stop(f"{count} exports were found in the module, and {len(exports)} in the sources")
    return text


def with_flags(text, flags, attributes):
    """The text of a module with these attributes of its functions and these flags."""
    text = re.sub(r"^(attributes #\d+ = \{ )(?=nounwind|cold)", rf"\1{attributes}", text, flags=re.M)
    if not flags:
        return text
    rows = [f'!{90000 + place} = !{{i32 8, !"{flag}", i32 {value}}}' for place, (flag, value) in enumerate(flags.items())]
    named = ", ".join(f"!{90000 + place}" for place in range(len(flags)))
    return "\n".join([text, f"!llvm.module.flags = !{{{named}}}", *rows, ""])


def by_pointer(text):
    """The text of a module that calls each function with a result of 16 bytes through another one, which passes C a pointer to it."""
    for name, parameters in BY_POINTER.items():
        text, calls = re.subn(rf"(= (?:tail )?call \{{ i64, i64 \}} )@{name}\(", rf"\1@through_{name}(", text)
        given = ", ".join(f"{kind} noundef %a{place}" for place, kind in enumerate(parameters))
        made = (f"define internal {{ i64, i64 }} @through_{name}({given}) #0 {{\n  %made = alloca {{ i64, i64 }}, align 8\n"
                f"  call void @{name}(ptr sret({{ i64, i64 }}) align 8 %made, {given})\n"
                f"  %answer = load {{ i64, i64 }}, ptr %made, align 8\n  ret {{ i64, i64 }} %answer\n}}\n"
                f"declare void @{name}(ptr sret({{ i64, i64 }}) align 8, {', '.join(parameters)})")
        text, declared = re.subn(rf"^declare \{{ i64, i64 \}} @{name}\(.*$", lambda _, made=made: made, text, flags=re.M)
        if (calls, declared) != (1, 1):
            stop(f"{name} is called {calls} times and declared {declared} times, and not once")
    return text


def for_target(text, name, folder, room):
    """The text of a module for one of the targets."""
    (at, _), target, flags, attributes = TARGETS[name]
    text = with_flags(named_anew(text), flags, attributes)
    if target == at:
        return text
    empty = ran([f"{folder}/toolchain/bin/clang", f"--target={target}", "-S", "-emit-llvm", "-x", "c", "/dev/null", "-o", "-"], room,
                f"clang has no target {target}")
    # Windows has its own probe of the stack, a call of a function, and its compilers keep the page that it probes for.
    text = text.replace(' "probe-stack"="inline-asm" "stack-probe-size"="3072"', "") if "windows" in target else text
    for word in ("datalayout", "triple"):
        line = re.search(rf"^target {word} = .*$", empty, re.M)[0]
        text, count = re.subn(rf"^target {word} = .*$", line, text, flags=re.M)
        if count != 1:
            stop(f"the module has {count} lines with its {word}")
    return by_pointer(text) if "windows" in target else text


def options(words, name, at):
    """The words for clang that makes the assembly for one of the targets, from those that make the proved object."""
    target = TARGETS[name][1]
    words = [f"--target={target}" if it.startswith("--target=") else it for it in words]
    if target != at:
        words = [it for it in words if not it.startswith(LINUX_ONLY)]
    words = ["-S" if it == "-c" else f"{name}.ll" if it.endswith((".bc", ".ll")) else it for it in words]
    return [*words, "-Xclang", "-fmerge-functions", "-fno-verbose-asm", "-Wno-unused-command-line-argument"]


def made_from(module, name, folder, room):
    """The lines of assembly for one of the targets, from a module of the kit."""
    text, words = module
    with open(f"{room}/{name}.ll", "w", encoding="utf-8") as it:
        it.write(for_target(text, name, folder, room))
    ran([f"{folder}/toolchain/bin/clang", *options(words, name, TARGETS[name][0][0]), "-o", f"{name}.s"], room, f"clang made no assembly for {name}")
    lines = [line for line in read(f"{room}/{name}.s").splitlines() if not line.startswith(UNKNOWN)]
    return for_windows(lines) if "windows" in TARGETS[name][1] else lines


def for_windows(lines):
    """The same lines for the assemblers of binutils and of LLVM: each function has a section of its own, by a number in place of a group
    by its name. The mark of features is left out, of which there are none, and a list for linkers of what a DLL does not export."""
    made, functions, left_out = [], {}, 0
    for line in lines:
        if "@feat.00" in line:
            left_out = 3 if ".def" in line else 0
        elif left_out:
            left_out -= 1
        elif line.startswith("\t.section\t.drectve"):
            break
        elif line.startswith("\t.section\t.text"):
            made.append(f'\t.section\t.text$p{functions.setdefault(line, len(functions))},"xr"')
        elif line.startswith("\t.section\t.rdata"):
            made.append('\t.section\t.rdata,"dr"')
        elif line.startswith("\t.section"):
            stop(f"a section that Windows is not known to have: {line}")
        else:
            made.append(line)
    return WINDOWS_HEAD + made


def files(names, folder, version, total):
    """The name and the text of each of these files."""
    for of in dict.fromkeys(TARGETS[name][0] for name in names):
        with tempfile.TemporaryDirectory(prefix="assembly-") as room:
            verdict, *module = module_of(of, folder, room)
            proved = " ".join(re.findall(r"(?:functions|target|sum)=\S+", verdict))
            for name in [it for it in names if TARGETS[it][0] == of]:
                lines = made_from(module, name, folder, room)
                yield name, "\n".join([
                    "/* Generated by scripts/assembly.py from proved crates; never edited. Of these sources and by this kit it comes out the",
                    f" * same, byte for byte: {version}, {TOP} {proved}.",
                    f" * sources: sha256 {total} */", *lines, ""])


def check(total, folder, version):
    """Checks that the files belong to the sources; returns how that was decided."""
    made_by = set()
    for name in TARGETS:
        head = read(f"{ROOT}/{FOLDER}/{name}.S")[:600]
        if f"sha256 {total}" not in head:
            stop(f"{FOLDER}/{name}.S is of other sources: run scripts/assembly.py")
        made_by.add(re.search(r"rattle-kit-\w+", head)[0])
    if folder is None:
        return "of these sources by their checksum; there is no kit, so they were not made anew"
    if made_by != {version}:
        return f"of these sources by their checksum; {', '.join(sorted(made_by))} made them and not {version}, so they were not made anew"
    for name, text in files(list(TARGETS), folder, version, total):
        if text != read(f"{ROOT}/{FOLDER}/{name}.S"):
            stop(f"{FOLDER}/{name}.S is not what the proved crates give: run scripts/assembly.py")
    return "made anew from the proved crates, each byte the same"


def main():
    total, (folder, version), words = sum_of_sources(), kit(), sys.argv[1:]
    if words == ["sources"]:
        print(f"assembly: {len(TARGETS)} files, {check(total, None, None)}")
        return
    if folder is None and words != ["check"]:
        stop("rt is not there")
    if folder is not None:
        if subprocess.run([f"{ROOT}/scripts/kit.py", "free"], check=False).returncode != 0:
            stop("another rt works in this copy")
        for name in crates()[TOP]:
            ran([f"{ROOT}/scripts/kit.py", "rt", "lib"], f"{ROOT}/crates/{name}", f"{name} is not proved")
    if words == ["check"]:
        print(f"assembly: {len(TARGETS)} files, {check(total, folder, version)}")
        return
    os.makedirs(f"{ROOT}/{FOLDER}", exist_ok=True)
    for name in set(words) - TARGETS.keys():
        stop(f"no target {name}")
    for name, text in files(words or list(TARGETS), folder, version, total):
        with open(f"{ROOT}/{FOLDER}/{name}.S", "w", encoding="utf-8") as it:
            it.write(text)
        print(f"assembly: {FOLDER}/{name}.S, {len(text.splitlines())} lines")


if __name__ == "__main__":
    main()
