#!/usr/bin/env python3
"""Tests the documents of the repository.

  scripts/documents.py                 all checks
  scripts/documents.py --quick         the checks that run no program: all except blocks in C and Rust, and the commands
  scripts/documents.py --wrap FILE..   wraps each paragraph of these pages, or of all pages, that has a line of more than 128
                                       characters

Each relative link, each anchor and each named page exists; README.md has at most 170 lines, and 500 words in front of "Read
on"; no line outside of code and tables is longer than 128 characters; docs/develop/ARCHITECTURE.md lists the crates of
crates.txt; the version is the same everywhere; toolchain.txt has the line of `rt version`, and no page names a kit; each line
of figures in README.md is in docs/use/PERFORMANCE.md; each picture is shown by a page, is light, and is of today's data;
docs/develop/DIFFERENCES.md names each theorem of the ported crates; each name in code type on the pages of what is proved is
in a public statement; each name in docs/use/GLOSSARY.md is in a source; docs/proof/VERIFICATION.md has the lemma of each
guarantee and the numbers of tools/measure/count_lines.sh.
Each block of code has a language, which decides its test:

  c        compiled; linked and run if the library is built (`make`)
  rust     built by cargo over rust/, and run
  rattle   is, word for word, in a crate that CI proves
  antt     is, word for word, in the definitions of a crate
  text     is an input or an output of a program, which its own tests run; or a picture of names in the sources;
           or lines of fields, whose bits are whole bytes
  python   is, word for word, in an example of python/, or a whole program that runs there (scripts/python.sh)
  toml     is TOML, and the features in it are those of rust/Cargo.toml
  sh       each command is run here, or by the script of scripts/test.sh that is listed below beside it

Needs a C compiler, $CC or cc; cargo of 1.85 or later for blocks in Rust; rt to start a crate. The last line says what
passed; the status is 0 if all did.
"""
import glob
import os
import re
import shutil
import subprocess
import sys
import tempfile
import textwrap
import tomllib

import mutants
import pictures as drawn

ROOT = os.path.dirname(os.path.dirname(os.path.realpath(__file__)))
sys.path.append(f"{ROOT}/tests/vectors")

import datagram_vectors  # noqa: E402  (the folder is known only now)
import program_vectors  # noqa: E402

LIBRARY = f"{ROOT}/c/out"
WIDTH = 128
README_LINES = 170
README_WORDS = 500
# Examples in the documentation of the Rust crate, which `cargo test` runs.
TESTED_BY_CARGO = "rust/src/doc/"
PICTURE_BYTES = 80_000
# The pages that say what is proved, and name only what public statements have.
STATED = [f"docs/proof/{it}.md" for it in ("README", "PROMISES", "FORWARDED", "SESSIONS", "CONTRACTS", "statements/README")]
# Pages on proofs that also name lemmas, files and things of the toolchain.
NAMING = [f"docs/proof/{it}.md" for it in ("TRUST", "VERIFICATION")]
# Pictures of a screen, which a test takes (tools/live_server/test.py).
SHOTS = ["live_server.webp", "live_server_phone.webp"]
FENCE = re.compile(r"^( *)```(.*)$")
# Commands of the documents that this script runs, in the root of the repository: they need nothing built, and are quick.
RUN_HERE = ["scripts/mutants.py --stale", "c/check_header.py", "tools/measure/count_lines.sh", "scripts/documents.py"]
# All other commands: how a command begins, and the file that runs it, with the words in that file.
RUN_ELSEWHERE = {
    "scripts/test.sh": ("scripts/test.sh", "scripts/test.sh --no-proofs"),
    "rt ci": ("scripts/test.sh", "rt ci"),
    "rt try": ("scripts/documents.py", "begun_crate"),
    "rt run": ("tests/vectors/process.py", '["rt", "run"]'),
    "rt check": ("scripts/mutants.py", '"rt", "check"'),
    "rt new": ("scripts/documents.py", "begun_crate"),
    "rm -rf crates/mine/": ("scripts/documents.py", "begun_crate"),
    'echo "mine: codec_payload_core"': ("scripts/documents.py", "begun_crate"),
    "cp examples/first.rattle": ("scripts/documents.py", "begun_crate"),
    "rt fmt": ("scripts/documents.py", "rt fmt"),
    "rt test": ("scripts/documents.py", "rt test"),
    "rt version": ("scripts/documents.py", "rt version"),
    "scripts/bindings.sh": ("scripts/test.sh", "runs scripts/bindings.sh"),
    "scripts/systems.sh": ("scripts/test.sh", "runs scripts/systems.sh"),
    "cmake ": ("scripts/systems.sh", "step cmake"),
    "ctest ": ("scripts/systems.sh", "ctest --test-dir"),
    "make check-windows": ("scripts/systems.sh", "step make check-windows"),
    "make PLAIN=1": ("scripts/targets.sh", "PLAIN=1 check"),
    "tests/vectors/process.py": ("scripts/rust.sh", "tests/vectors/process.py"),
    "scripts/try.sh": ("scripts/rust.sh", "scripts/try.sh"),
    "scripts/theorem.py": ("scripts/test.sh", "runs scripts/theorem.py"),
    "scripts/statements.py": ("scripts/test.sh", "runs scripts/statements.py"),
    "scripts/statement_plants.py": ("scripts/test.sh", "runs scripts/statement_plants.py"),
    "scripts/memory_lint.py": ("scripts/test.sh", "runs scripts/memory_lint.py"),
    "scripts/refuse.sh": ("scripts/test.sh", "runs scripts/refuse.sh"),
    "tools/measure/allocations.sh": ("scripts/test.sh", "runs tools/measure/allocations.sh"),
    "tools/measure/instructions.sh": ("scripts/test.sh", "runs tools/measure/instructions.sh"),
    "tools/measure/receiving.py": ("scripts/test.sh", "runs tools/measure/receiving.py"),
    "scripts/mutants.py": ("scripts/test.sh", "runs scripts/mutants.py --stale"),
    "scripts/mutants.py --missing": ("scripts/documents.py", "mutant_results"),
    "tools/measure/bench.sh": ("tools/measure/allocations.sh", "tools/bench/bench.c"),
    "scripts/examples.py": ("scripts/test.sh", "runs scripts/examples.py"),
    "tools/chromium/chromium_peer.py": ("scripts/test.sh", "runs tools/chromium/chromium_peer.py"),
    "cc -Iinclude examples/": ("scripts/examples.py", "examples/{name}.c"),
    "c/out/gateway": ("scripts/examples.py", '[programs[name, language]]'),
    "c/out/nack": ("scripts/examples.py", '[programs[name, language]]'),
    "cd rust": ("scripts/rust.sh", 'cd "$root/rust"'),
    "scripts/pictures.py": ("scripts/documents.py", "scripts/pictures.py"),
    "scripts/assembly.py": ("scripts/bindings.sh", "step scripts/assembly.py"),
    "packaging/abi.sh": ("scripts/bindings.sh", "step packaging/abi.sh"),
    "make check": ("scripts/bindings.sh", "step make check"),
    "make check-aarch64": ("scripts/bindings.sh", "step make check-aarch64"),
    "make loopback": ("c/tests/check.sh", "loopback"),
    "make example": ("c/tests/check.sh", "first"),
    "make install": ("packaging/install_test.sh", "install PREFIX="),
    "make man": ("packaging/install_test.sh", "doxygen"),
    "make dist": ("packaging/install_test.sh", "dist"),
    "make deb": ("packaging/install_test.sh", "deb"),
    "make -C tools/rtp_record": ("tools/rtp_record/test.sh", "make -s all"),
    "make": ("tools/rtp_record/test.sh", "make -s all"),
    "cc program.c": ("packaging/install_test.sh", "pkg-config --cflags codec-payload"),
    "cc -Iinclude program.c": ("scripts/documents.py", "{LIBRARY}/libcodec_payload.a"),
    "cargo test": ("scripts/rust.sh", "cargo test --quiet"),
    "cargo run --example": ("scripts/rust.sh", "cargo run --quiet --example"),
    "cargo run": ("scripts/documents.py", '"cargo", "run"'),
    "cargo add --path": ("scripts/documents.py", '"cargo", "add"'),
    "scripts/rust.sh": ("scripts/test.sh", "runs scripts/rust.sh"),
    "scripts/targets.sh": ("scripts/test.sh", "runs scripts/targets.sh"),
    "scripts/python.sh": ("scripts/test.sh", "runs scripts/python.sh"),
    "pip install ./python": ("scripts/python.sh", "-m pip wheel"),
    "tools/eraser/erase.py": ("scripts/rust.sh", "tools/eraser/erase.py"),
    "tools/plain_mutants.py": ("scripts/rust.sh", "tools/plain_mutants.py"),
    "cd tools/models": ("scripts/rust.sh", "tools/models/target/release/models"),
    "cd tools/paths": ("scripts/rust.sh", "tools/paths/target/release/paths"),
    "tools/eraser/plants.py": ("scripts/rust.sh", "tools/eraser/plants.py"),
    "tools/rtp_record/install.sh": ("scripts/test.sh", "tools/rtp_record/install.sh"),
    "tools/rtp_record/rtp_record": ("scripts/test.sh", "runs tools/rtp_record/test.sh"),
    "./install.sh": ("scripts/test.sh", "tools/rtp_record/install.sh"),
    "./rtp_record": ("scripts/test.sh", "runs tools/rtp_record/test.sh"),
    "./live_server": ("tools/live_server/test.py", '"live_server"'),
    "./bandwidth.py": ("tools/live_server/test.py", "from bandwidth import measure"),
    "make -C tools/gstreamer": ("scripts/test.sh", "make -s -C tools/gstreamer"),
    "tools/gstreamer/install.sh": ("scripts/test.sh", "tools/gstreamer/install.sh"),
    "export GST_PLUGIN_PATH": ("tools/gstreamer/test.sh", "export GST_PLUGIN_PATH"),
    "gst-inspect-1.0": ("tools/gstreamer/test.sh", "gst-inspect-1.0"),
    "gst-launch-1.0": ("tools/gstreamer/tests/pipelines.py", "gst-launch-1.0"),
    "make -C ../..": ("packaging/install_test.sh", "make"),
    "cd crates/": ("tests/vectors/process.py", '["rt", "run"]'),
    "cd tools/lines": ("tests/vectors/process.py", "cwd=LINES"),
    "cargo run --quiet --bin payload_": ("tests/vectors/process.py", "stored(program, name)"),
}


def read(path):
    with open(path if os.path.isabs(path) else f"{ROOT}/{path}", encoding="utf-8") as it:
        return it.read()


def files(*endings):
    """The files of the repository with these endings, without built files."""
    found = []
    for folder, below, names in os.walk(ROOT):
        below[:] = sorted(it for it in below if it not in ("out", "target", ".git", "__pycache__", "recorded"))
        found += [os.path.relpath(f"{folder}/{it}", ROOT) for it in sorted(names) if it.endswith(endings)]
    return found


class Block:
    """A block of code: its page, the number of its first line, its language and its text."""

    def __init__(self, page, line, language, text):
        self.page, self.line, self.language, self.text = page, line, language, text

    def __str__(self):
        return f"{self.page}:{self.line}"


def blocks_and_rest(page):
    """The blocks of code of a page, and its other lines with their numbers."""
    blocks, rest, opened = [], [], None
    for number, line in enumerate(read(page).split("\n"), 1):
        fence = FENCE.match(line)
        if opened is None and fence:
            opened = (number + 1, fence[2].strip(), [], len(fence[1]))
        elif opened and fence and not fence[2]:
            blocks.append(Block(page, opened[0], opened[1], "".join(f"{it[opened[3]:]}\n" for it in opened[2])))
            opened = None
        elif opened:
            opened[2].append(line)
        else:
            rest.append((number, line))
    return blocks, rest


def anchors(page):
    """The anchors of a page's headings, as GitHub makes them."""
    found = []
    for _, line in blocks_and_rest(page)[1]:
        heading = re.match(r"#+ (.*)", line)
        if heading:
            plain = re.sub(r"[`*]|\]\([^)]*\)|\[", "", heading[1]).strip().lower()
            name = re.sub(r"[^\w\- ]", "", plain).replace(" ", "-")
            found.append(f"{name}-{found.count(name)}" if name in found else name)
    return found


def links(pages):
    for page in pages:
        for number, line in blocks_and_rest(page)[1]:
            for target in re.findall(r"\]\(([^)\s]+)\)", re.sub(r"`[^`]*`", "", line)):
                if re.match(r"[a-z]+:", target):
                    continue
                path, _, anchor = target.partition("#")
                aim = os.path.normpath(os.path.join(os.path.dirname(page), path)) if path else page
                if not os.path.exists(f"{ROOT}/{aim}"):
                    yield f"{page}:{number}: there is no {target}"
                elif anchor and anchor not in anchors(aim):
                    yield f"{page}:{number}: {aim} has no heading {anchor}"


def named_pages():
    """Pages, and headings of them, that are named in the text of any file. Sources of crates may leave out the page's folder."""
    for name in files(".md", ".py", ".sh", ".c", ".h", ".rs", ".rt", ".antt", "Makefile"):
        text = re.sub(r"\n *(//[/!]|--|#|\*) ", " ", read(name))  # a comment's lines are one text
        for path, heading in set(re.findall(r"\b(docs/(?:\w+/)?[A-Z_]+\.md)\b(?:, \"([^\"]+)\")?", text)):
            found = [path] if name.split("/")[0] not in ("crates", "rust") else [path, *glob.glob(f"docs/*/{path[5:]}", root_dir=ROOT)]
            found = [it for it in found if os.path.exists(f"{ROOT}/{it}")]
            if not found:
                yield f"{name}: names {path}, which is not there"
            elif heading and not re.search(rf"^#+ {re.escape(heading)}$", read(found[0]), re.M):
                yield f"{name}: {path} has no heading {heading}"


def lines(pages):
    for page in pages:
        for number, line in enumerate(read(page).split("\n"), 1):
            if re.match(r"(<<<<<<<|>>>>>>>) |=======$", line):
                yield f"{page}:{number}: two versions of one passage"
        for number, line in blocks_and_rest(page)[1]:
            if len(line) > WIDTH and not line.startswith("|") and not re.match(r"^!\[[^]]*\]\(\S+\)$", line):
                yield f"{page}:{number}: {len(line)} characters"
    count = read("README.md").count("\n")
    if count > README_LINES:
        yield f"README.md has {count} lines, and not {README_LINES} at most"
    first = re.sub(r"\]\([^)]*\)", "]", read("README.md").split("## Read on")[0])
    words = len(re.findall(r"[A-Za-z0-9][\w'.,:/&-]*", first))
    if words > README_WORDS:
        yield f"README.md has {words} words in front of \"Read on\", and not {README_WORDS} at most"


def crate_table():
    listed = [it.split(":")[0].split()[0] for it in read("crates.txt").split("\n") if it.strip() and not it.startswith("#")]
    table = re.findall(r"^\| (`[a-z_0-9`, ]+`) \| .*\|$", read("docs/develop/ARCHITECTURE.md"), re.M)
    named = [it for row in table for it in re.findall(r"`((?:codec_)?payload_[a-z_0-9]+)`", row)]
    for crate in sorted({*listed, *named}):
        if listed.count(crate) != 1 or named.count(crate) != 1:
            times = f"{listed.count(crate)} times in crates.txt, {named.count(crate)} times"
            yield f"docs/develop/ARCHITECTURE.md: {crate} is {times} in the table"


def toolchain():
    """toolchain.txt has the line that `rt version` prints, and no page names a kit: toolchain.txt alone does."""
    lines = read("toolchain.txt").split("\n")
    if shutil.which("rt"):
        found = subprocess.run(["rt", "version"], capture_output=True, text=True, check=False).stdout.strip()
        if found not in lines:
            yield f"toolchain.txt lacks {found!r}, which rt version prints"
    for page in ["README.md", "CONTRIBUTING.md", *glob.glob("docs/*/*.md", root_dir=ROOT)]:
        for named in re.findall(r"rattle-kit-\w+", read(page)):
            yield f"{page} names {named}: toolchain.txt alone names kits"


def versions():
    header = dict(re.findall(r"^#define CPAY_VERSION_(MAJOR|MINOR|PATCH) (\d+)$", read("include/codec_payload.h"), re.M))
    version = ".".join(header[it] for it in ("MAJOR", "MINOR", "PATCH"))
    for found in re.findall(r'^version = "([^"]*)"', read("rust/Cargo.toml"), re.M):
        if found != version:
            yield f"rust/Cargo.toml: version {found}, and the header has {version}"
    releases = re.findall(r"^## (\d+\.\d+\.\d+)", read("CHANGELOG.md"), re.M)
    if version not in releases:
        yield f"CHANGELOG.md has no {version}, which is the version of the header"


def additions():
    """DIFFERENCES names the theorems of the ported crates, which are public functions without a parameter."""
    ported = "base audio vp8 vp9 av1 red buffer core".split()
    page = read("docs/develop/DIFFERENCES.md")
    for path in files(".rt"):
        if path.split("/")[1].removeprefix("codec_payload_") in ported:
            for law in re.findall(r"^pub fn (\w+)\(\)", read(path), re.M):
                if f"`{law}`" not in page:
                    yield f"docs/develop/DIFFERENCES.md does not name {law} of {path}"


def figures():
    rows = [it for it in read("README.md").split("\n") if re.match(r"\| [^|]+ \| \d[\d,.]* \|", it)]
    for row in rows:
        if row not in read("docs/use/PERFORMANCE.md").split("\n"):
            yield f"README.md: docs/use/PERFORMANCE.md has no row {row}"
    if not rows:
        yield "README.md has no row of figures"


def pictures(pages):
    for path in glob.glob(f"{ROOT}/docs/pictures/*"):
        name = os.path.basename(path)
        if not any(f"pictures/{name})" in read(page) for page in pages):
            yield f"docs/pictures/{name}: no page shows it"
        if os.path.getsize(path) > PICTURE_BYTES:
            yield f"docs/pictures/{name} has {os.path.getsize(path)} bytes"
        if name in SHOTS:
            continue
        if name.removesuffix(".svg") not in drawn.PICTURES:
            yield f"docs/pictures/{name}: scripts/pictures.py does not draw it"
        elif not read(path).endswith(drawn.made_of(name.removesuffix(".svg"))):
            yield f"docs/pictures/{name} is not of today's data: call scripts/pictures.py"


def glossary():
    """Each term of docs/use/GLOSSARY.md in code type is a name of the library."""
    sources = "\n".join(read(it) for it in files(".rt", ".h"))
    for row in re.findall(r"^\| (.*?) \| ", read("docs/use/GLOSSARY.md"), re.M):
        for term in re.findall(r"`(\w+)`", row):
            if not re.search(rf"\b{term}\b", sources):
                yield f"docs/use/GLOSSARY.md: no source has {term}"


def lemmas():
    """docs/proof/VERIFICATION.md has each field of KeepsPromises with its lemma, and each definition and lemma is in its file."""
    crate = "crates/codec_payload_buffer_runs"
    fields = re.search(r"record KeepsPromisesIf .*?\n\n", read(f"{crate}/specs/RunPromises.antt"), re.S)[0]
    proof, page = read(f"{crate}/proofs/order/RunLogs.antt"), read("docs/proof/VERIFICATION.md")
    for field in re.findall(r"^  pub (\w+) :", fields, re.M):
        row = re.search(rf"^\| .*\| `{field}` \| .* \| (.*) \| `(.*)` \|$", page, re.M)
        if not row:
            yield f"docs/proof/VERIFICATION.md has no lemma of {field}"
        elif not os.path.exists(f"{ROOT}/{crate}/proofs/{row[2].removeprefix('proofs/')}"):
            yield f"docs/proof/VERIFICATION.md: {row[2]} does not exist"
        for lemma in re.findall(r"`(\w+)`", row[1] if row else ""):
            if lemma != "run_schedule" and not re.search(rf"^      {field} = .*\b{lemma}\b", proof, re.M):
                yield f"docs/proof/VERIFICATION.md: order/RunLogs.antt does not prove {field} by {lemma}"
    for names, file in re.findall(r"((?:`\w+`(?:, )?)+) of `([\w/]+\.antt)`", page):
        texts = [read(it) for it in files(".antt") if it.endswith(f"/{file}")]
        for name in re.findall(r"`(\w+)`", names):
            if not any(re.search(rf"^(?:(?:abbrev |unfoldable |pub |record |data )*| +pub ){name} ", it, re.M) for it in texts):
                yield f"docs/proof/VERIFICATION.md: {file} has no {name}"


def not_stated(page, text):
    """The names of a text about what is proved that no public statement has. `history_` stands for names with this beginning."""
    stated = {it for path in glob.glob(f"{ROOT}/docs/proof/statements/*.txt") for it in re.findall(r"\w+", read(path))}
    known = stated | set(re.findall(r"\bCPAY_\w+", read("include/codec_payload.h")))
    for name in names_in(text):
        if name not in known and not (name.endswith("_") and any(it.startswith(name) for it in stated)):
            yield f"{page}: no public statement has {name}"


def names_in(text):
    """The names in code type, also those of a path."""
    return sorted({name for it in re.findall(r"`([A-Za-z_]\w*(?:::\w+)*)`", text) for name in it.split("::")})


def not_found(page, text):
    """The names of a text about proofs that no source has: crates, crates.txt, scripts and the libraries for C and Rust."""
    known = set()
    for path in ["crates.txt", *files(".rt", ".antt", ".py", ".sh", ".c", ".h", ".rs")]:
        known |= set(re.findall(r"\w+", read(path)))
    for name in names_in(text):
        if name not in known:
            yield f"{page}: no source has {name}"


def cited():
    """Each name in code type on a page that says what is proved is in a public statement, and on a page about proofs in a source."""
    for page in STATED:
        yield from not_stated(page, "\n".join(line for _, line in blocks_and_rest(page)[1]))
    for page in NAMING:
        yield from not_found(page, "\n".join(line for _, line in blocks_and_rest(page)[1]))


def witness_tests():
    """The tests that execute the runs of the theorems that premises can be met."""
    return "\n".join(read(it) for it in files(".rs") if re.search(r"rust/tests/wire/witness\w*\.rs$", it))


def witnesses(tests):
    """Each theorem that premises can be met has a test of its name, which executes the run; and the page of these tests has all names."""
    executed, listed = set(re.findall(r"#\[test\]\nfn (\w+)", tests)), set(re.findall(r"^//!.*$", tests, re.M))
    for path in files(".rt"):
        for name in re.findall(r"^pub fn (\w*can_be_met)\(", read(path), re.M):
            if name not in executed:
                yield f"{path}: no test of rust/tests/wire executes the run of {name}"
            if not any(f"`{name}`" in it for it in listed):
                yield f"rust/tests/wire/witnesses.rs does not list {name}"


def mutant_results():
    """mutants/RESULTS.txt has one line for a crate, at most, with counts that add up. Old lines are no fault."""
    lines = [it.split() for it in read("mutants/RESULTS.txt").splitlines() if not it.startswith("#")]
    for line in lines:
        if line[0] not in mutants.crates() or [it[0] for it in lines].count(line[0]) != 1:
            yield f"mutants/RESULTS.txt: {line[0]} is not one crate with one line"
        elif int(line[1]) != sum(int(it) for it in line[2:5]):
            yield f"mutants/RESULTS.txt: the counts of {line[0]} do not add up"


def counted_lines():
    """docs/proof/VERIFICATION.md has the numbers that tools/measure/count_lines.sh prints, to a fifth."""
    page = read("docs/proof/VERIFICATION.md")
    page = page[page.index("## How much there is"):page.index("## How statements are kept honest")]
    numbers = [int(it.replace(",", "")) for it in re.findall(r"\b\d+(?:,\d{3})*\b", page)]
    printed = subprocess.run([f"{ROOT}/tools/measure/count_lines.sh"], capture_output=True, text=True, check=True).stdout
    found = {name: int(lines) for name, lines in re.findall(r"^(.*): (\d+)$", printed, re.M)}
    found["C: calls.c"] += found.pop("C: memory.c")
    for name, count in found.items():
        if not any(abs(it - count) * 5 <= count for it in numbers):
            yield f"docs/proof/VERIFICATION.md has no number near {count} ({name} of tools/measure/count_lines.sh)"


def ran(words, **named):
    """None if a command succeeds, else its messages."""
    done = subprocess.run(words, stdout=subprocess.PIPE, stderr=subprocess.STDOUT, check=False, **named)
    return "" if done.returncode == 0 else done.stdout.decode(errors="replace") or f"status {done.returncode}"


def compiled_c(block, work):
    source = f"{work}/block.c"
    whole = block.text if "#include" in block.text else f'#include "codec_payload.h"\n{block.text}'
    with open(source, "w", encoding="utf-8") as it:
        it.write(whole)
    # As C++ too: the header's enums stand as such in structs and calls.
    plus = [os.environ.get("CXX", "c++"), "-std=c++20", "-x", "c++", "-Wall", "-Werror", f"-I{ROOT}/include", "-fsyntax-only", source]
    said = ran(plus)
    if said:
        return f"as C++: {said}"
    words = [os.environ.get("CC", "cc"), "-std=c99", "-Wall", "-Wextra", "-Werror", f"-I{ROOT}/include", source]
    archive = f"{LIBRARY}/libcodec_payload.a"
    if "int main(" not in whole or not os.path.exists(archive):
        return ran([*words, "-fsyntax-only"])
    return ran([*words, archive, "-o", f"{work}/block"]) or ran([f"{work}/block"])


def checked_rust(block, work, crate=f"{ROOT}/rust", environment=os.environ):
    lines_of_it = [re.sub(r"^# ?(?!\[)", "", it) for it in block.text.split("\n")]
    whole = "\n".join(lines_of_it)
    if "fn main()" not in whole:
        whole = f"fn main() -> Result<(), Box<dyn std::error::Error>> {{\n{whole}\nOk(())\n}}\n"
    os.makedirs(f"{work}/page/src", exist_ok=True)
    with open(f"{work}/page/src/main.rs", "w", encoding="utf-8") as it:
        it.write(whole)
    with open(f"{work}/page/Cargo.toml", "w", encoding="utf-8") as it:
        it.write('[package]\nname = "page"\nversion = "0.0.0"\nedition = "2024"\n')
    said = ran(["cargo", "add", "--offline", "--quiet", "--path", crate], cwd=f"{work}/page")
    if said:
        return said
    named = {**environment, "CARGO_TARGET_DIR": f"{work}/target"}
    return ran(["cargo", "run", "--offline", "--quiet"], cwd=f"{work}/page", env=named)


def stands_in(block, paths):
    """Whether the block is in one of these files, with any indentation. Each name in `use` lines is used there."""
    texts = [read(it) for it in paths]
    if any(block.text in it or textwrap.dedent(block.text) in textwrap.dedent(it) for it in texts):
        return True
    uses = re.findall(r"^use ([\w:]+)::(?:\{([^}]*)\}|(\w+));$", block.text, re.M)
    if not uses or len(uses) != block.text.count(";"):
        return False

    def used(text):
        found = re.findall(r"^use ([\w:]+)::(?:\{([^}]*)\}|(\w+));$", text, re.M | re.S)
        return {(path, name.strip()) for path, many, one in found for name in (many or one).split(",") if name.strip()}

    return any(used(block.text) <= used(it) for it in texts)


def whole_bytes(block):
    """Lines of fields, as `X R PID(3)`, have whole bytes: a name without a number is one bit."""
    for line in block.text.strip().split("\n"):
        fields = re.split(r" {3,}", line.strip())[0]
        if not re.fullmatch(r"(?:[A-Za-z_]\w*(?:=\d)?(?:\(\d+(?: or \d+)?\))?(?: |$))+", fields):
            return f"neither an input nor an output of a program, nor a picture, nor fields of bytes: {line}"
        parts = re.findall(r"\w+(\([^)]*\))?", re.sub(r"=\d", "", fields))
        bits = [re.findall(r"\d+", it) or ["1"] for it in parts]
        for case in range(max(len(it) for it in bits)):
            if sum(int(it[min(case, len(it) - 1)]) for it in bits) % 8:
                return f"these fields are no whole bytes: {line}"
    return ""


def tested_text(block):
    rows = [*program_vectors.ROWS, *datagram_vectors.ROWS]
    known = [it for row in rows for it in (row.given, row.output)]
    known += [read(it) for it in [*glob.glob(f"{ROOT}/crates/*/std*"), *glob.glob(f"{ROOT}/tools/lines/*/std*")]]
    if block.text in known:
        return ""
    if block.page == "docs/use/RECIPES.md":
        return ""  # scripts/examples.py compares the page with what the programs print
    if "►" not in block.text:
        return whole_bytes(block)
    sources = "\n".join(read(it) for it in files(".rt"))
    names = [it for it in re.findall(r"\w+(?:::\w+)*", block.text) if re.search(r"[a-z][A-Z]|_|::|^[A-Z]\w*[a-z]", it)]
    names = [part for it in names for part in it.split("::")]
    missing = [it for it in names if not re.search(rf"\b{it}\b", sources)]
    return f"no source has {', '.join(missing)}" if missing else ""


def tested_python(block):
    """A program is run by python/tests/test_documents.py; all else is part of an example."""
    if re.match(r"(from|import) ", block.text):
        return "" if block.page == "docs/use/PYTHON.md" else "python/tests/test_documents.py runs programs of docs/use/PYTHON.md alone"
    return "" if stands_in(block, glob.glob("python/examples/*.py", root_dir=ROOT)) else "is in no example"


def tested_toml(block):
    """The dependency on the crate names features that it has."""
    features = tomllib.loads(read("rust/Cargo.toml"))["features"]
    named = tomllib.loads(block.text)["dependencies"]["codec-payload"]["features"]
    return "".join(f"the crate has no feature {it}" for it in named if it not in features)


def tested_sh(block):
    """Each command of a block is one that is run here, or that the listed file runs."""
    for line in block.text.replace("\\\n", " ").split("\n"):
        bare = re.sub(r"(^|\s)#.*", "", line).strip().strip("()")
        # A pipeline is one command: its | and ; are GStreamer's.
        commands = [bare] if bare.startswith("gst-launch-1.0") else re.split(r"&&|;|\|", bare)
        for command in filter(None, (it.strip() for it in commands)):
            if command in RUN_HERE:
                continue
            begins = [it for it in RUN_ELSEWHERE if command == it or command.startswith(it)]
            if not begins:
                return f"no test runs: {command}"
            path, words = RUN_ELSEWHERE[max(begins, key=len)]
            if words not in read(path):
                return f"{path} does not run: {command}"
            script = re.sub(r"^\w+=\S+ ", "", command).split()[0]
            folder = os.path.dirname(block.page)
            aim = os.path.join(ROOT, folder if folder in ("tools/rtp_record", "tools/live_server", "tools/gstreamer") else "", script)
            is_built = script.endswith(("/rtp_record", "/live_server")) or script.startswith("c/out/")
            if "/" in script and not is_built and not os.path.exists(aim):
                return f"there is no {script}"
    return ""


def blocks(pages, quick):
    runs = ("c", "rust")
    tests = {
        "c": compiled_c,
        "rust": checked_rust,
        "rattle": lambda it, _: "" if stands_in(it, files(".rt")) else "stands in no source",
        "antt": lambda it, _: "" if stands_in(it, files(".antt")) else "stands in no definition",
        "text": lambda it, _: tested_text(it),
        "python": lambda it, _: tested_python(it),
        "toml": lambda it, _: tested_toml(it),
        "sh": lambda it, _: tested_sh(it),
    }
    with tempfile.TemporaryDirectory() as work:
        for block in (it for page in pages for it in blocks_and_rest(page)[0]):
            if quick and block.language in runs:
                continue
            if block.language not in tests:
                yield f"{block}: no test for a block of {block.language or 'no language'}"
            elif block.language == "rust" and not shutil.which("cargo"):
                yield f"{block}: cargo is not there"
            else:
                said = tests[block.language](block, work)
                if said:
                    yield f"{block}: {said}"


def begun_crate():
    """The commands by which docs/develop/RATTLE.md begins a crate make one over a copy of the crates, and run its test."""
    if not shutil.which("rt"):
        return
    block = next(it for it in blocks_and_rest("docs/develop/RATTLE.md")[0] if it.text.startswith("rt new "))
    with tempfile.TemporaryDirectory() as work:
        shutil.copytree(f"{ROOT}/crates", f"{work}/crates", ignore=shutil.ignore_patterns("out"))
        shutil.copytree(f"{ROOT}/examples", f"{work}/examples")
        for name in ("crates.txt", "HANDLES"):
            shutil.copy(f"{ROOT}/{name}", work)
        begun = subprocess.run(["sh", "-e", "-c", block.text], cwd=work, capture_output=True, text=True, check=False)
        if begun.returncode or "test result: ok. 1 passed; 0 failed" not in begun.stdout + begun.stderr:
            yield f"{block}: no crate is begun by this: {begun.stdout[-500:]}{begun.stderr[-500:]}"


def commands(pages):
    """The commands of the documents that are quick, run."""
    named = "\n".join(block.text for page in pages for block in blocks_and_rest(page)[0] if block.language == "sh")
    for command in RUN_HERE:
        if command in named and command != "scripts/documents.py":
            said = ran(command.split(), cwd=ROOT)
            if said:
                yield f"{command}: {said}"


def wrap(page):
    """The text of a page, with each paragraph that has too long a line wrapped again."""
    text, paragraph, code = [], [], False

    def flush():
        if any(len(it) > WIDTH for it in paragraph):
            bullet = re.match(r"( *(?:[-*]|\d+\.) +)?( *)", paragraph[0])
            begin = bullet[1] or bullet[2]
            words = " ".join(it.strip() for it in [paragraph[0][len(begin):], *paragraph[1:]])
            text.extend(textwrap.wrap(words, WIDTH, initial_indent=begin, subsequent_indent=" " * len(begin),
                                      break_long_words=False, break_on_hyphens=False))
        else:
            text.extend(paragraph)
        paragraph.clear()

    for line in read(page).split("\n"):
        fence = FENCE.match(line)
        code = code != bool(fence)
        if code or fence or not line.strip() or re.match(r"[|#!]", line):
            flush()
            text.append(line)
            continue
        if re.match(r" *([-*]|\d+\.) ", line):
            flush()
        paragraph.append(line)
    flush()
    return "\n".join(text)


def main(words):
    if words[:1] == ["--wrap"]:
        for path in [os.path.abspath(it) for it in words[1:]] or [f"{ROOT}/{it}" for it in files(".md")]:
            wrapped = wrap(path)
            with open(path, "w", encoding="utf-8") as it:
                it.write(wrapped)
        return 0
    quick = words[:1] == ["--quick"]
    pages = [it for it in files(".md") if not it.startswith(TESTED_BY_CARGO)]
    wrong = [
        *links(pages), *named_pages(), *lines(pages), *crate_table(), *versions(), *toolchain(), *additions(), *figures(),
        *pictures(pages), *glossary(), *lemmas(), *cited(), *witnesses(witness_tests()), *counted_lines(), *mutant_results(), *blocks(pages, quick),
    ]
    if not quick:
        wrong += [*begun_crate(), *commands(pages)]
    count = sum(len(blocks_and_rest(it)[0]) for it in pages)
    verdict = f"{len(wrong)} faults" if wrong else "all passed"
    print("\n".join([*wrong, f"documents: {len(pages)} pages with {count} blocks of code: {verdict}"]))
    return 1 if wrong else 0


if __name__ == "__main__":
    sys.exit(main(sys.argv[1:]))
