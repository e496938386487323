#!/usr/bin/env python3
"""Tries mutants: the prover must refuse each, by the contract of the function that it edits.

  scripts/mutants.py                     all edits of must-fail/ and mutants/CRATE.edits, of every crate
  scripts/mutants.py CRATE [NAME..]      the edits of one crate, or the named ones
  scripts/mutants.py CRATE FILE.edit..   edits from anywhere, applied to that crate
  scripts/mutants.py --alone ..          the same, with each edit in a check of its own
  scripts/mutants.py --high-impact [CRATE]   the edits of mutants/high_impact.txt, the most harmful ones
  scripts/mutants.py --stale             the edits of all crates that cannot be applied, without the prover
  scripts/mutants.py --record [--jobs N] [CRATE..]   all edits of these crates or of all, into mutants/RESULTS.txt
  scripts/mutants.py --missing           the crates whose line in mutants/RESULTS.txt is missing or old, without the prover

mutants/CRATE.edits has the edits of a crate: each is a line '[NAME]', a line 'file: src/x.rt', and pairs of lines 'old: TEXT' and
'new: TEXT'; each old text occurs once in that file. An edit of must-fail/ is a file of these lines. It is applied to a scratch
copy of the crate, over the results of `rt check`. The function with its first old text is checked, with the functions that it
calls. One line is printed for each edit, and the last line has the counts:

  refused     a clause was not proved
  by names    refused, but only because a proof file names what the edit took away: this says little of the contract. Counted with
              the refused, and once more behind the counts
  PROVED      the mutant meets the contract: the contract is too weak
  BAD EDIT    it cannot be applied, or the edited text does not compile, so no contract was tried

Many edits are tried in one check. The prover checks a body against the contracts of the functions that it calls, and their callers
see these contracts alone. So one check can try edits of different bodies, and says of each function whether it is proved. An edit
is refused there if the prover names a goal of its function's own body, or reports an error in the proof files of that function that
is about more than names.

All other edits are tried alone: one that changes more than bodies, one whose functions are proved, and one whose function fails
only by what it calls. A group that does not compile is halved until the edit at fault is alone. So PROVED, BAD EDIT and 'by names'
always come from a check of one edit.

A line of mutants/RESULTS.txt is old if its checksum differs. The checksum has the edits of the crate, its src, specs and proofs,
src and specs of all crates below it, without comments and layout, and the logic in toolchain.txt. Proofs below are not in it: they
make no false clause true.
--record tries nothing of a crate whose line is not old, and goes on where an earlier run ended: out/tried_mutants.txt of a crate
keeps each answer, by a checksum of the sources and edit. With --jobs N it tries the edits of N crates side by side.

The status is 0 if all were refused, with --missing if no line is. Needs rt, and some 4 seconds of one processor per edit, after the
check of each crate.
"""
import concurrent.futures
import glob
import hashlib
import os
import re
import shutil
import signal
import subprocess
import sys
import tempfile
import threading
import time

import assembly

ROOT = os.path.dirname(os.path.dirname(os.path.realpath(__file__)))
RESULTS = f"{ROOT}/mutants/RESULTS.txt"
SOURCES = ("src", "specs", "proofs")
FUNCTION = re.compile(r'^( *)(?:pub(?:\([a-z]+\))? )?(?:const )?(?:extern "C" )?fn (\w+)', re.M)
MESSAGE = re.compile(r"(?:note: )?\S+:\d+:\d+:")
# What a message says of a name that the edited code no longer has.
NAMES = re.compile(r"has no field|is not in scope|has no `[^`]*` that can be named|was not admitted")
UNREAD = re.compile(r"(\./)?(src|specs)/.*(is not in scope|expected the end|has no field)", re.S)
# The most edits in one check. A larger group saves little, and loses more if it does not compile.
LARGEST = 32
RUNNING, STOPPING = set(), threading.Event()
HEAD = (
    "# Written by scripts/mutants.py --record: crate, mutants, refused, PROVED, not tried, checksum, names of those not refused, "
    "and names:NAME of those refused by names alone.\n"
)
COMMENTS = {".rt": (assembly.COMMENT, r"\1"), ".antt": (re.compile(r"(?m)(?:^|(?<=\s))--(?:[ \t].*)?$"), "")}
# The edits of mutants/ as files.
ROOM = tempfile.TemporaryDirectory(prefix="edits-")
# One crate is checked at a time, and one line is written at a time.
ALONE = threading.Lock()


def read(path):
    with open(path, encoding="utf-8") as it:
        return it.read()


def run(words, folder):
    """The status and the output of a command. Ends the thread once the script was told to stop."""
    if STOPPING.is_set():
        raise SystemExit("stopped")
    how = {"stdin": subprocess.DEVNULL, "stdout": subprocess.PIPE, "stderr": subprocess.STDOUT, "text": True, "errors": "replace"}
    with subprocess.Popen(words, cwd=folder, **how) as ran:
        RUNNING.add(ran)
        if STOPPING.is_set():
            ran.terminate()
        said = ran.communicate()[0]
        RUNNING.discard(ran)
    if STOPPING.is_set():
        raise SystemExit("stopped")
    return ran.returncode, said


def stop_running():
    """Ends the commands that run."""
    STOPPING.set()
    for it in [*RUNNING]:
        it.terminate()


def read_edit(path):
    """The edit's steps: file, old text, new text."""
    steps, file, old = [], None, None
    for line in read(path).split("\n"):
        if line.startswith("file: "):
            file = line[6:].strip()
        elif line.startswith("old: "):
            old = line[5:]
        elif line.startswith("new:") and file and old:
            steps.append((file, old, line[4:].removeprefix(" ")))
            old = None
    return steps


def function_at(file, text, place):
    """The path of the function at a place of a file, or of the module if there is none."""
    module = re.sub(r"^src/|(/lib|/main)?\.rt$", "", file).replace("/", "::")
    module = "" if module in ("lib", "main") else module
    before = text[:place]
    line_end = text.find("\n", place)
    heads = list(FUNCTION.finditer(text[: line_end if line_end >= 0 else None]))
    if not heads:
        return module
    indent, name = heads[-1].groups()
    closed = re.search(rf"^{indent}\}}", text[heads[-1].end() : place], re.M)
    if closed:
        return module
    parts = [module] if module else []
    if indent:
        impl = list(re.finditer(r"^(?:unsafe )?impl(?:<[^>]*>)? +(.*?)\{", before, re.M | re.S))
        if impl:
            header = re.sub(r"<[^<>]*>", "", re.sub(r"<[^<>]*>", "", impl[-1][1])).split(" where ")[0]
            trait, _, kind = header.partition(" for ")
            parts.append((kind or trait).strip().split("::")[-1] + (trait.strip().split("::")[-1] if kind else ""))
    return "::".join([*parts, name])


def apply(steps, folder):
    """The texts of the files that the edit changes and the function to check, or why it cannot be applied."""
    texts, function = {}, None
    for file, old, new in steps:
        if file not in texts:
            try:
                texts[file] = read(f"{folder}/{file}")
            except OSError:
                return None, f"there is no file {file}"
        found = texts[file].count(old)
        if found != 1:
            return None, f"an old text stands in {file} {found} times, and not once"
        if old == new:
            return None, f"an edit of {file} changes nothing"
        if function is None:
            function = function_at(file, texts[file], texts[file].index(old))
        texts[file] = texts[file].replace(old, new)
    return (texts, function) if texts else (None, "it has no pair of 'old:' and 'new:'")


def places_of(steps, folder):
    """What the edit puts where in its files: file, from, to and text. None if its steps meet."""
    places = []
    for file, old, new in steps:
        text = read(f"{folder}/{file}")
        if text.count(old) != 1:
            return None
        head = len(os.path.commonprefix([old, new]))
        tail = len(os.path.commonprefix([old[head:][::-1], new[head:][::-1]]))
        at = text.index(old)
        places.append((file, at + head, at + len(old) - tail, new[head : len(new) - tail]))
    places.sort()
    meet = any(one[0] == other[0] and one[2] > other[1] for one, other in zip(places, places[1:]))
    return None if meet else places


def bodies(file, text):
    """The bodies of a file's functions: where each begins and ends, and the function's path. It relies on the layout of `rt fmt`."""
    heads, found = list(FUNCTION.finditer(text)), []
    for head, after in zip(heads, [*heads[1:], None]):
        close = re.compile(rf"^{head[1]}\}}$", re.M).search(text, head.end())
        if not close or after and after.start() < close.start():
            continue
        # with clauses the brace is alone on its line
        opens = (rf"^{head[1]}\{{$", r"\{$")
        opened = next(filter(None, (re.compile(it, re.M).search(text, head.end(), close.start()) for it in opens)), None)
        if opened:
            found.append((opened.end(), close.start(), function_at(file, text, head.start())))
    return found


def known_as(function, known):
    """The function as the prover names it, by the module of its type where its impl stands elsewhere. None if that is not clear."""
    parts = function.split("::")
    for at in range(max(len(parts) - 1, 1)):
        tail = "::".join(parts[at:])
        found = [it for it in known if it == tail] or [it for it in known if it.endswith(f"::{tail}")]
        if found:
            return found[0] if len(found) == 1 else None
    return None


def functions_of(places, folder, known):
    """The functions whose bodies the edit changes. None if it changes more than bodies."""
    found = set()
    for file, start, end, _ in places:
        inside = [it for it in bodies(file, read(f"{folder}/{file}")) if it[0] <= start and end <= it[1]] if file.endswith(".rt") else []
        function = known_as(inside[0][2], known) if inside else None
        if not function:
            return None
        found.add(function)
    return found


def groups_of(functions):
    """Divides edits, given with their functions, into groups in which no function is edited twice, of about the same size."""
    taken = [it for own in functions.values() for it in own]
    number = max([taken.count(it) for it in taken] + [-(-len(functions) // LARGEST)], default=0)
    groups = [{} for _ in range(number)]
    for edit in sorted(functions, key=lambda it: -max(taken.count(one) for one in functions[it])):
        free = [it for it in groups if not functions[edit] & {one for own in it.values() for one in own}]
        if not free:
            groups.append({})
        min(free or groups[-1:], key=len)[edit] = functions[edit]
    return groups


def messages(said):
    """The errors and notes of a check that have a place, each with the lines that belong to it."""
    found, lines = [], said.rstrip("\n").split("\n")
    for at, line in enumerate(lines):
        if MESSAGE.match(line) and (": error" in line or line.startswith("note: ")):
            more = next((it for it in range(at + 1, len(lines)) if not lines[it].startswith("  ")), len(lines))
            found.append("\n".join(lines[at:more]))
    return found


def is_of_names(message):
    """Whether a message about a proof file says only that a name is gone."""
    return bool(re.match(r"(note: )?(\./)?proofs/", message) and NAMES.search(" ".join(it.strip() for it in message.split("\n")[:3])))


def own_refusal(said, function):
    """What a check says against the body of this function itself, '' if nothing: not what it says of the functions that it calls."""
    line = re.search(rf"^fn \w+::{re.escape(function)}: (?:no proof|not proved).*$", said, re.M)
    if not line:
        return ""
    before, goals = said[: line.start()], re.search(r"`search` did not prove [^;]*", line[0])
    # the goals of a function stand between the line of the function before it and its own
    open_goal = re.search(r"^note: src/\S+: it is not proved that .*$", before[before.rfind("\nfn ") + 1 :], re.M)
    if goals or open_goal:
        return f"{function}: {goals[0]}" if goals else open_goal[0]
    folder = f"./proofs/{function.replace('::', '/')}/"
    errors = [it for it in messages(said) if it.startswith(folder) and ": error" in it]
    return next((it for it in errors if not is_of_names(it)), "")


def is_read(said):
    """Whether a check reached the prover, and no message is about text that cannot be read."""
    unread = any(UNREAD.match(it) for it in messages(said)) or re.search(r"^\S+: error\[|^error\[", said, re.M)
    return bool(re.search(r"^fn \S+: ", said, re.M)) and not unread


def judged(status, said):
    """The outcome of a check of one edit, one of four words, and the first message."""
    told, lines = messages(said), said.rstrip("\n").split("\n")
    counts = re.search(r"^only=(\d+) proved=(\d+)|^logic=(proved|not-proved)", said, re.M)
    if not counts:
        return "BAD EDIT", next(iter(told), lines[-1])
    if status == 0 and (counts[1] == counts[2] if counts[1] else counts[3] == "proved"):
        return "PROVED", ""
    unread = next((it for it in told if UNREAD.match(it)), None)
    if unread or re.search(r"error\[", said) and not re.search(r"^fn .*: not proved", said, re.M):
        return "BAD EDIT", unread or next(iter(told), lines[-1])
    meant = [it for it in told if not is_of_names(it)]
    return ("refused", meant[0]) if meant else ("by names", next(iter(told), ""))


class Scratch:
    """A copy of a crate and of what it needs, in which edits are tried. What the prover replaces and never changes is linked."""

    def __init__(self, root, room, crate, every, below, jobs):
        self.folder, self.copy, self.jobs, self.checks = f"{root}/crates/{crate}", f"{room}/crates/{crate}", jobs, 0
        for name in ("crates.txt", "HANDLES"):
            shutil.copy(f"{root}/{name}", room)
        for one in every:
            for part in SOURCES:
                if os.path.isdir(f"{root}/crates/{one}/{part}"):
                    shutil.copytree(f"{root}/crates/{one}/{part}", f"{room}/crates/{one}/{part}", symlinks=True)
        for one in below:
            if os.path.isdir(f"{root}/crates/{one}/out/rlib"):
                link_folder(f"{root}/crates/{one}/out/rlib", f"{room}/crates/{one}/out/rlib")

    def check(self, texts, functions):
        """Checks these functions, or all, with other texts of some files, over what `rt check` kept of the crate."""
        self.checks += 1
        kept = f"{self.copy}/out/incremental"
        shutil.rmtree(kept, ignore_errors=True)
        link_folder(f"{self.folder}/out/incremental", kept, ".oantt")
        for file, text in texts.items():
            with open(f"{self.copy}/{file}", "w", encoding="utf-8") as it:
                it.write(text)
        words = [f"{ROOT}/scripts/kit.py", "rt", "check", *(word for it in sorted(functions) for word in ("--only", it))]
        try:
            return run(words + (["--jobs", str(self.jobs)] if self.jobs else []), self.copy)
        finally:
            for file in texts:
                shutil.copy2(f"{self.folder}/{file}", f"{self.copy}/{file}")


def link_folder(folder, to, ending=""):
    """Copies a folder; files with this ending become links where the file system has them."""

    def copy(one, other):
        try:
            return os.link(one, other) if one.endswith(ending) else shutil.copy2(one, other)
        except OSError:
            return shutil.copy2(one, other)

    shutil.copytree(folder, to, symlinks=True, copy_function=copy)


def tried_alone(scratch, edit):
    """The outcome of a check of this edit alone, and the first message."""
    texts, function = apply(read_edit(edit), scratch.folder)
    status, said = scratch.check(texts, [function] if function else [])
    while function and re.search(r"fits (nothing|no function|several)|has no function", said):
        function = function.partition("::")[2]  # an impl may stand in another module than its type; without a name, all is checked
        status, said = scratch.check(texts, [function] if function else [])
    return judged(status, said)


def tried_together(scratch, group, places):
    """What the body of each edit's own function is refused for, by edit; '' if that is not clear. None if the group has to be halved."""
    texts = {}
    for file, start, end, text in sorted((it for edit in group for it in places[edit]), reverse=True):
        before = texts.get(file) or read(f"{scratch.folder}/{file}")
        texts[file] = before[:start] + text + before[end:]
    _, said = scratch.check(texts, {it for own in group.values() for it in own})
    if not is_read(said):
        return None
    return {edit: next(filter(None, (own_refusal(said, it) for it in sorted(own))), "") for edit, own in group.items()}


def outcomes(scratch, edits, known, is_alone):
    """Tries the edits: each with its answer and the first message. `known` are the crate's functions as the prover names them."""
    places, functions, alone = {}, {}, []
    for edit in edits:
        texts, why = apply(read_edit(edit), scratch.folder)
        if texts is None:
            yield edit, "BAD EDIT", why
            continue
        places[edit] = places_of(read_edit(edit), scratch.folder)
        own = functions_of(places[edit], scratch.folder, known) if places[edit] and not is_alone else None
        if own:
            functions[edit] = own
        else:
            alone.append(edit)
    groups = groups_of(functions)
    while groups:
        group = groups.pop(0)
        refusals = tried_together(scratch, group, places) if len(group) > 1 else dict.fromkeys(group, "")
        if refusals is None:
            each = [*group.items()]
            groups[:0] = [dict(each[: len(each) // 2]), dict(each[len(each) // 2 :])]
            continue
        yield from ((edit, "refused", why) for edit, why in refusals.items() if why)
        alone += [edit for edit, why in refusals.items() if not why]
    for edit in alone:
        yield edit, *tried_alone(scratch, edit)



def name_of(edit):
    return os.path.basename(edit).removesuffix(".edit")


def crates():
    """Each crate of the repository with the crates that it names in crates.txt."""
    found = {}
    for line in read(f"{ROOT}/crates.txt").splitlines():
        if line.strip() and not line.startswith("#"):
            name, _, uses = line.partition(":")
            found[name.split()[0]] = uses.split()
    return {name: [it for it in uses if it in found] for name, uses in found.items()}


def with_those_below(crate):
    return [crate, *(it for below in crates()[crate] for it in with_those_below(below))]


def unfolded(crate):
    """The edits of mutants/CRATE.edits, each as a file of its own, as must-fail/ has them."""
    path = f"{ROOT}/mutants/{crate}.edits"
    _, *parts = re.split(r"(?m)^\[(\w+)\]\n", read(path)) if os.path.exists(path) else [""]
    names, texts = parts[::2], parts[1::2]
    if len({*names}) < len(names):
        sys.exit(f"mutants/{crate}.edits has a name twice")
    os.makedirs(f"{ROOM.name}/{crate}", exist_ok=True)
    for name, text in zip(names, texts):
        edit = f"{ROOM.name}/{crate}/{name}.edit"
        if not os.path.exists(edit):
            with open(edit, "w", encoding="utf-8") as it:
                it.write(text.strip("\n") + "\n")
        yield edit


def edits_of(crate):
    return sorted([*glob.glob(f"{ROOT}/crates/{crate}/must-fail/*.edit"), *unfolded(crate)], key=name_of)


def proved_functions(crate):
    """The crate's functions, by their paths below it. Ends the run of this crate if one is not proved."""
    status, said = run([f"{ROOT}/scripts/kit.py", "rt", "check"], f"{ROOT}/crates/{crate}")
    if status:
        sys.exit(f"{crate} is not proved:\n{said[-2000:]}")
    return re.findall(rf"^fn {crate}::(\S+): proved", said, re.M)


def tried(crate, edits, jobs=0, is_alone=False):
    """Tries the edits on one scratch copy of the crate and keeps the answers: each edit with its answer. `jobs` is for each check."""
    began, count, sources = time.time(), 0, sum_of_sources(crate)
    with tempfile.TemporaryDirectory(prefix=f"mutants-{os.getpid()}-") as room:
        with ALONE:
            known = proved_functions(crate)
            below = sorted({*with_those_below(crate)} - {crate})
            scratch = Scratch(ROOT, room, crate, crates(), below, jobs)
        for edit, word, why in outcomes(scratch, edits, known, is_alone):
            count += 1
            why = " ".join(why.split())[:160]
            print(f"{crate}/{name_of(edit)}: {word}{': ' + why if why else ''}", flush=True)
            if word != "BAD EDIT":
                with open(kept_at(crate), "a", encoding="utf-8") as it:
                    it.write(f"{checksum(sources, read(edit).strip())} {word}\n")
            yield edit, word
    print(f"{crate}: {count} tried in {scratch.checks} checks and {time.time() - began:.0f} seconds", flush=True)


def told(counts):
    """The last line: how many edits had which answer."""
    refused, by_names = counts.get("refused", 0), counts.get("by names", 0)
    line = f"{refused + by_names} refused, {counts.get('PROVED', 0)} PROVED, {counts.get('BAD EDIT', 0)} BAD EDIT"
    return line + (f", {by_names} of the refused by names alone" if by_names else "")


def bare(file, text):
    """A source without comments and layout."""
    comment, instead = COMMENTS[os.path.splitext(file)[1]]
    return " ".join(comment.sub(instead, text).split())


def checksum(*texts):
    return hashlib.sha256("\0".join(texts).encode()).hexdigest()[:16]


def sum_of_sources(crate):
    """A checksum of what the answers about a crate depend on, except for its edits."""
    texts = sorted(set(re.findall(r"logic \w+", read(f"{ROOT}/toolchain.txt"))))
    for one in sorted(set(with_those_below(crate))):
        for part in SOURCES if one == crate else SOURCES[:2]:
            found = glob.glob(f"{ROOT}/crates/{one}/{part}/**/*", recursive=True)
            for path in sorted(it for it in found if it.endswith((".rt", ".antt"))):
                texts += [os.path.relpath(path, ROOT), bare(path, read(path))]
    return checksum(*texts)


def sum_of(crate):
    """A checksum of all that the answers about a crate depend on."""
    return checksum(sum_of_sources(crate), *(f"{name_of(it)}\n{read(it).strip()}" for it in edits_of(crate)))


def recorded():
    """The lines of mutants/RESULTS.txt by crate, as lists of words."""
    lines = read(RESULTS).splitlines() if os.path.exists(RESULTS) else []
    return {line.split()[0]: line.split() for line in lines if line.strip() and not line.startswith("#")}


def is_recorded(crate, lines):
    """Whether the line of a crate is about today's sources and edits, and all edits were tried."""
    line = lines.get(crate)
    return line is not None and line[4] == "0" and line[5] == sum_of(crate)


def row_of(crate, total, answers):
    """The line of a crate from its checksum and the answers about its edits, by name."""
    refused = [name for name, word in answers.items() if word in ("refused", "by names")]
    counts = [len(refused), *(sum(it == word for it in answers.values()) for word in ("PROVED", "BAD EDIT"))]
    others = sorted(name for name in answers if name not in refused)
    others += sorted(f"names:{name}" for name, word in answers.items() if word == "by names")
    return [crate, *map(str, [len(answers), *counts]), total, *others]


def kept_at(crate):
    return f"{ROOT}/crates/{crate}/out/tried_mutants.txt"


def kept_answers(crate):
    """The answers of earlier runs, by checksum."""
    return dict(line.split(" ", 1) for line in read(kept_at(crate)).splitlines()) if os.path.exists(kept_at(crate)) else {}


def answers_of(crate, jobs):
    """The answers about all edits of a crate, by name; those that an earlier run kept are not tried again."""
    sources, kept = sum_of_sources(crate), kept_answers(crate)
    sums = {edit: checksum(sources, read(edit).strip()) for edit in edits_of(crate)}
    answers = {name_of(edit): kept[it] for edit, it in sums.items() if it in kept}
    rest = [edit for edit, it in sums.items() if it not in kept]
    answers.update((name_of(edit), word) for edit, word in (tried(crate, rest, jobs) if rest else ()))
    return answers


def write_line(crate, row):
    """Puts the line of a crate in its place, in the order of crates.txt."""
    lines = {**recorded(), crate: row}
    with open(RESULTS, "w", encoding="utf-8") as it:
        it.writelines([HEAD, *(f"{' '.join(lines[one])}\n" for one in crates() if one in lines)])


def record_crate(crate, jobs):
    """Tries the edits of a crate unless its line is about today's sources. The line, and none if the crate is not proved."""
    if is_recorded(crate, recorded()):
        print(f"as recorded: {' '.join(recorded()[crate])}", flush=True)
        return recorded()[crate]
    total = sum_of(crate)
    try:
        row = row_of(crate, total, answers_of(crate, jobs))
    except SystemExit as why:
        print(f"not recorded: {crate}: {why}", flush=True)
        return None
    with ALONE:
        write_line(crate, row)
    print(f"recorded: {' '.join(row)}", flush=True)
    return row


def record(named, jobs):
    """Tries the edits of these crates, or of all, those with most edits first, and writes their lines. The status."""
    unknown = [it for it in named if it not in crates()]
    if unknown:
        sys.exit(f"crates.txt has no crate {' '.join(unknown)}")
    chosen = sorted((it for it in named or crates() if edits_of(it)), key=lambda it: -len(edits_of(it)))
    each = max((os.cpu_count() or 1) // jobs, 1) if jobs > 1 else 0
    with concurrent.futures.ThreadPoolExecutor(jobs) as pool:
        rows = [it for it in pool.map(lambda it: record_crate(it, each), chosen) if it]
    refused, proved, bad = (sum(int(it[at]) for it in rows) for at in (2, 3, 4))
    by_names = sum(it.startswith("names:") for row in rows for it in row[6:])
    print(told({"refused": refused - by_names, "by names": by_names, "PROVED": proved, "BAD EDIT": bad}))
    return 0 if len(rows) == len(chosen) and not proved + bad else 1


def print_missing():
    """Prints the crates whose line is missing or old, and counts them."""
    lines = recorded()
    missing = [it for it in crates() if edits_of(it) and not is_recorded(it, lines)]
    for crate in missing:
        print(f"{crate}: {len(edits_of(crate))} mutants, {'an old line' if crate in lines else 'no line'}")
    print(f"{len(missing)} missing")
    return 1 if missing else 0


def telling(crate):
    """The names of the edits of a crate that would hurt most."""
    named = [line.strip().split("/") for line in read(f"{ROOT}/mutants/high_impact.txt").splitlines() if not line.startswith("#")]
    return [name for of, name in named if of == crate]


def print_stale():
    """Prints the edits that cannot be applied, and counts them."""
    count = 0
    for crate in crates():
        missing = set(telling(crate)) - {name_of(it) for it in edits_of(crate)}
        for name in sorted(missing):
            count += 1
            print(f"mutants/high_impact.txt: {crate}/{name} does not exist")
        for edit in edits_of(crate):
            texts, why = apply(read_edit(edit), f"{ROOT}/crates/{crate}")
            if texts is None:
                count += 1
                print(f"{crate}/{name_of(edit)}: {why}")
    print(f"{count} stale")
    return 1 if count else 0


def try_named(words, is_telling, is_alone):
    """Tries the edits of all crates, of one, or the named ones of one, and counts the answers. The status."""
    if words and words[0].startswith("-"):
        sys.exit(f"no option {words[0]}: scripts/mutants.py --help lists all")
    if words and words[0] not in crates():
        sys.exit(f"crates.txt has no crate {words[0]}")
    counts = {}
    for crate in [words[0]] if words else list(crates()):
        edits = edits_of(crate)
        if is_telling:
            edits = [it for it in edits if name_of(it) in telling(crate)]
        elif words[1:]:
            by_name = {name_of(it): it for it in edits}
            edits = [it if os.path.isfile(it) else by_name.get(it.removesuffix(".edit")) or sys.exit(f"no edit {it}") for it in words[1:]]
        for _, word in tried(crate, edits, is_alone=is_alone) if edits else ():
            counts[word] = counts.get(word, 0) + 1
    print(told(counts))
    return 0 if set(counts) <= {"refused", "by names"} else 1


def stop(number, _):
    """Ends the checks that run, and then the script, which removes its scratch copies."""
    signal.signal(number, signal.SIG_IGN)
    stop_running()
    sys.exit(128 + number)


def sweep():
    """Removes the scratch copies that killed runs left."""
    for path in glob.glob(f"{tempfile.gettempdir()}/mutants-*-*"):
        number = path.rsplit("-", 2)[1]
        if number.isdigit() and not os.path.exists(f"/proc/{number}"):
            shutil.rmtree(path, ignore_errors=True)


def main(words):
    if {"-h", "--help"} & {*words}:
        print(__doc__.strip())
        return 0
    if words == ["--stale"]:
        return print_stale()
    if words == ["--missing"]:
        return print_missing()
    for it in (signal.SIGINT, signal.SIGTERM, signal.SIGHUP):
        signal.signal(it, stop)
    sweep()
    if words[:1] == ["--record"]:
        has_jobs = words[1:2] == ["--jobs"]
        if has_jobs and not (words[2:] and words[2].isdigit() and int(words[2])):
            sys.exit("--jobs takes a number from 1 on")
        return record(words[3:] if has_jobs else words[1:], int(words[2]) if has_jobs else 1)
    is_alone = words[:1] == ["--alone"]
    words = words[is_alone:]
    is_telling = words[:1] == ["--high-impact"]
    return try_named(words[is_telling:], is_telling, is_alone)


if __name__ == "__main__":
    sys.exit(main(sys.argv[1:]))
