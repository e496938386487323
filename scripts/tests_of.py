#!/usr/bin/env python3
"""Prints the tests of rust/tests that exercise what changed since the last commit, as arguments of `cargo test`.

  scripts/tests_of.py              of the changed files of rust/src and rust/tests
  scripts/tests_of.py FILE ..      of these files

A test exercises a module of rust/src if it names the module, or a type or function of it, or a module that uses it. Nothing is
printed if nothing changed, and `--tests`, all of them, if a file changed that no module names or that every one does. Without a
history all tests are printed.
"""
import glob
import os
import re
import subprocess
import sys
from collections import defaultdict

ROOT = os.path.dirname(os.path.dirname(os.path.realpath(__file__)))
# They name others for users alone, so a change below them does not pass through them.
NAMES_ALONE = {"parts", "ext", "lib", "sdp"}
# A change in them is one in every module.
EVERYWHERE = {"lib", "memory", "ext"}


def read(path):
    with open(path, encoding="utf-8") as file:
        return file.read()


def module_of(path):
    """The module of a file of rust/src."""
    return path.split("/")[2].removesuffix(".rs")


def modules():
    """For each module the modules that use it, and the public names that it has."""
    users, names = defaultdict(set), defaultdict(set)
    for path in glob.glob("rust/src/**/*.rs", recursive=True):
        module, text = module_of(path), read(path)
        for used in re.findall(r"\bcrate::(\w+)", text):
            users[used] |= {module}
        names[module] |= set(re.findall(r"^pub (?:const )?(?:fn|struct|enum|trait|type) (\w+)", text, re.M))
    return users, names


def affected(changed, users):
    """The modules in which a change of these can be seen."""
    found, rest = set(changed), list(changed)
    while rest:
        new = users[rest.pop()] - found - NAMES_ALONE
        found |= new
        rest += new
    return found


def tests():
    """Each test of rust/tests with the text of its files."""
    found = {os.path.basename(path).removesuffix(".rs"): read(path) for path in glob.glob("rust/tests/*.rs")}
    for folder in glob.glob("rust/tests/*/main.rs"):
        files = glob.glob(os.path.dirname(folder) + "/**/*.rs", recursive=True)
        found[folder.split("/")[2]] = "\n".join(map(read, files))
    return found


def used(text):
    """The names that a test takes from the library: of modules, types and functions."""
    return set(re.findall(r"\w+", " ".join(re.findall(r"\bcodec_payload::(?:\w+::)*(?:\{[^;]*?\};|\w+)", text))))


def changed_files():
    """The files of rust that differ from the last commit, or None without a history."""
    asked = subprocess.run(["git", "status", "--porcelain", "--untracked-files=all", "--", "rust/src", "rust/tests"], capture_output=True, text=True, check=False)
    return None if asked.returncode else [line[3:].split(" -> ")[-1] for line in asked.stdout.splitlines()]


def chosen(files):
    """The tests that exercise these files."""
    users, names = modules()
    all_tests = tests()
    own = {it.split("/")[2].removesuffix(".rs") for it in files if it.startswith("rust/tests/")}
    changed = {module_of(it) for it in files if it.startswith("rust/src/")}
    if changed & EVERYWHERE or own - set(all_tests):
        return ["--tests"]
    seen = affected(changed, users)
    wanted = {word for it in seen for word in {it, *names[it]}}
    found = sorted(name for name, text in all_tests.items() if name in own or used(text) & wanted)
    return [word for name in found for word in ("--test", name)]


def main(files):
    """Prints the arguments."""
    os.chdir(ROOT)
    files = files or changed_files()
    print(" ".join(["--tests"] if files is None else chosen(files) if files else []))
    return 0


if __name__ == "__main__":
    sys.exit(main(sys.argv[1:]))
