#!/usr/bin/env python3
"""Plants wrong bodies into copies of rust/src that prove, or that no clause excludes: a test or a model notices each.

  tools/plain_mutants.py

- Out of memory without cause, at some size: each has a test of rust/tests/never_out_of_memory/together.rs that fails then.
- Wrong rules of a buffer, a receiver and a forwarder: the models of tools/models differ within seconds.

All of one kind are planted together, so each has a test of its own. Needs cargo. The last line says what passed; the status is 0 if each
plant was noticed.
"""
import os
import re
import shutil
import subprocess
import sys
import tempfile

ROOT = os.path.dirname(os.path.dirname(os.path.realpath(__file__)))
GIVES_UP = "if {} {{ return Err(AllocError); }}\n        "
# The test that fails, the file, the text behind which the plant goes, and the plant.
MEMORY = [
    ("retransmissions", "stream/storing.rs", r"fn push_again<.*?\{\n        ", GIVES_UP.format("payload.len() > 1_400")),
    ("values_of_extensions", "stream/storing.rs", r"fn push_with_rare_values<.*?\{\n        ", GIVES_UP.format("payload.len() > 1_100")),
    ("dependency_descriptors", "frame_notes/note.rs", r"fn descriptor_if\(.*?return Ok\(None\);\n    \};\n    ", GIVES_UP.format("bytes.len() > 64")),
    ("frames_of_vp9", "frame_notes/note.rs", r"pub fn of\(.*?\{\n        ", GIVES_UP.format("is_vp9 && payload.len() > 1_100")),
    ("histories_without_a_stream_of_retransmissions", "history/retransmission.rs", r"\nfn write_again\(.*?\{\n    ", GIVES_UP.format("stream.is_none() && bytes.len() > 1_200")),
    ("restarts", "jitter/jitter_buffer/restarting.rs", r"\nfn copy_of\(.*?\{\n    ", GIVES_UP.format("packet.payload.len() > 1_100")),
    ("pairs_that_a_session_finds", "session/association.rs", r"\npub\(crate\) fn add_pair\(.*?\{\n    ", GIVES_UP.format("settings.pairs.len() >= 32")),
    ("telephone_events", "session/telephone.rs", r"fn copy_of\(.*?\{\n        ", GIVES_UP.format("packet.payload.len() > 64")),
]
# The model that differs, the file, the old text and the new one.
RULES = [
    ("buffer", "contiguity.rs", "if picture_id <= last_picture_id {\n            return (false", "if picture_id < last_picture_id {\n            return (false"),
    ("receiver", "jitter/waiting.rs", "(Some(max_wait), Some(since)) => max_wait <= now.0", "(Some(max_wait), Some(since)) => max_wait < now.0"),
    ("forwarder", "forward/times.rs", "self.highest.wrapping_add(ticks)\n", "self.highest.wrapping_add(ticks).wrapping_add(1)\n"),
]


def copied(folder):
    """A copy of the crate, of the models and of what tests include."""
    for name in ("rust", "tools/models", "c/tests/sdp", "tests/vectors"):
        shutil.copytree(f"{ROOT}/{name}", f"{folder}/{name}", ignore=shutil.ignore_patterns("target"))


def edit(path, pattern, new):
    """Plants a text behind the only place of a pattern."""
    with open(path, encoding="utf-8") as file:
        text = file.read()
    places = list(re.finditer(pattern, text, re.S))
    if len(places) != 1:
        raise ValueError(f"{path}: {len(places)} places of {pattern!r}")
    with open(path, "w", encoding="utf-8") as file:
        file.write(text[:places[0].end()] + new + text[places[0].end():])


def replace(path, old, new):
    """Replaces the only place of a text."""
    with open(path, encoding="utf-8") as file:
        text = file.read()
    if text.count(old) != 1:
        raise ValueError(f"{path}: {text.count(old)} places of {old!r}")
    with open(path, "w", encoding="utf-8") as file:
        file.write(text.replace(old, new))


def cargo(folder, *words):
    """Runs cargo offline, with the targets of the copy."""
    environment = {**os.environ, "CARGO_NET_OFFLINE": "true", "CARGO_INCREMENTAL": "0", "CARGO_PROFILE_DEV_DEBUG": "0", "RUST_BACKTRACE": "0"}
    return subprocess.run(["cargo", *words], cwd=folder, env=environment, capture_output=True, text=True, check=False)


def memory_unnoticed(folder):
    """The plants of out of memory that no test notices."""
    for _, path, pattern, new in MEMORY:
        edit(f"{folder}/rust/src/{path}", pattern, new)
    ran = cargo(f"{folder}/rust", "test", "--no-fail-fast", "--test", "never_out_of_memory", "together")
    failed = set(re.findall(r"^test together::(\w+) \.\.\. FAILED$", ran.stdout, re.M))
    if "test result" not in ran.stdout:
        print(ran.stderr[-3_000:])
    return [name for name, *_ in MEMORY if name not in failed]


def rules_unnoticed(folder):
    """The plants of rules that no model notices."""
    for _, path, old, new in RULES:
        replace(f"{folder}/rust/src/{path}", old, new)
    built = cargo(f"{folder}/tools/models", "build", "--quiet", "--release")
    if built.returncode:
        print(built.stderr[-3_000:])
        return [name for name, *_ in RULES]
    program = f"{folder}/tools/models/target/release/models"
    return [name for name, *_ in RULES if subprocess.run([program, name, "10"], capture_output=True, check=False).returncode != 1]


def main():
    """Tries all plants."""
    unnoticed = []
    for tries in (memory_unnoticed, rules_unnoticed):
        with tempfile.TemporaryDirectory() as folder:
            copied(folder)
            unnoticed += tries(folder)
    for name in unnoticed:
        print(f"nothing notices the plant for {name}")
    print(f"{len(MEMORY) + len(RULES) - len(unnoticed)} plants of plain Rust noticed, {len(unnoticed)} not")
    return 1 if unnoticed else 0


if __name__ == "__main__":
    sys.exit(main())
