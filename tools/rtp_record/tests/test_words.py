#!/usr/bin/env python3
"""The words of the program: --help, the manual page and the completion have the same options, and progress is for terminals.

  tests/test_words.py [PROGRAM]

The last line is `N passed, N failed`."""

import os
import pty
import re
import subprocess
import sys
import tempfile

from checks import PROGRAM, check, status_of_checks
from recorded import CAPTURES, HERE

TOOL = os.path.join(HERE, "..")


def text_of(name):
    with open(f"{TOOL}/{name}", encoding="ascii") as file:
        return file.read()


def options():
    """The table in options.c has the same options as the help, the manual page and the completion."""
    table = {(letter, name) for name, letter in re.findall(r'\{"([a-z-]+)", \w+_argument, NULL, \'(\w)\'\}', text_of("options.c"))}
    letters = re.search(r'getopt_long\(count, words, "([^"]*)"', text_of("options.c"))[1].replace(":", "")
    check({letter for letter, _ in table} == set(letters), "each option has a letter and a name")
    helped = subprocess.run([PROGRAM, "--help"], capture_output=True, check=True, text=True).stdout
    check(set(re.findall(r"^  -(\w), --([a-z-]+)", helped, re.M)) == table, "--help")
    page = text_of("rtp_record.1").replace("\\-", "-")
    check(set(re.findall(r"^\.BR -(\w) \", \" --([a-z-]+)", page, re.M)) == table, "the manual page")
    completion = text_of("completion.bash")
    check({f"--{name}" for _, name in table} == set(re.findall(r"--[a-z][a-z-]+", completion.split("-W", 2)[2].split("-- ")[0])), "the completion")
    rendered = subprocess.run(["man", "--warnings", "-l", f"{TOOL}/rtp_record.1"], capture_output=True, check=False, text=True) if (
        os.path.exists("/usr/bin/man")) else None
    check(rendered is None or (rendered.returncode == 0 and not rendered.stderr), "the manual page has no warnings")


def completes():
    script = f"source {TOOL}/completion.bash; COMP_WORDS=(rtp_record --j); COMP_CWORD=1; _rtp_record; echo ${{COMPREPLY[@]}}"
    found = subprocess.run(["bash", "-c", script], capture_output=True, check=True, text=True).stdout.split()
    check(found == ["--json"], f"--j is completed: {found}")


def on_terminal(*words):
    """What comes on a terminal, as the standard error stream."""
    ours, theirs = pty.openpty()
    subprocess.run([PROGRAM, *words], stdout=subprocess.DEVNULL, stderr=theirs, check=False)
    os.close(theirs)
    shown = b""
    try:
        while True:
            piece = os.read(ours, 4096)
            if not piece:
                break
            shown += piece
    except OSError:  # the other end is closed
        pass
    os.close(ours)
    return shown.decode()


def progress(folder):
    path = f"{CAPTURES}/vp8.pcap"
    shown = on_terminal(path, "-o", folder)
    check(re.search(r"\d+ packets, \d+\.\d MB of \d+\.\d MB", shown), f"progress on a terminal: {shown!r}")
    check(shown.endswith("\r\x1b[K"), f"and it is cleared at the end: {shown!r}")
    check(on_terminal("--quiet", path) == "", "--quiet has no progress")
    ran = subprocess.run([PROGRAM, path, "-o", folder], capture_output=True, check=False)
    check(ran.stderr == b"", f"none in a pipe: {ran.stderr}")


def main():
    options()
    completes()
    with tempfile.TemporaryDirectory() as folder:
        progress(folder)
    return status_of_checks()


if __name__ == "__main__":
    sys.exit(main())
