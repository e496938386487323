#!/usr/bin/python3
"""Runs the pipelines of docs/use/GSTREAMER.md: tests/pipelines.py FOLDER. Each block of code with gst-launch-1.0 is one test: its
commands run side by side for four seconds, and then end by EOS. A sink that needs a screen or a loudspeaker becomes a file in the folder,
whose size says what was shown; files that the page writes are in the folder too. Needs the packages of ./install.sh --tests.
"""
import os
import re
import shlex
import signal
import subprocess
import sys
import time

ROOT = os.path.dirname(os.path.dirname(os.path.dirname(os.path.dirname(os.path.realpath(__file__)))))
PAGE = f"{ROOT}/docs/use/GSTREAMER.md"
SECONDS = 4
# Of each block, by its heading: what has to be in the folder afterwards, and the least number of bytes of it. A picture of 320 by 240
# has 115,200 bytes; a second of stereo samples at 48 kHz has 192,000.
WANTED = {
    "A camera and a viewer": {"shown-0": 40 * 115_200},
    "A viewer that records": {"shown-0": 40 * 115_200, "seen.mkv": 5_000},
    "A call's capture becomes a WebM file": {"call.webm": 50_000},
    "A telephone becomes Opus": {"shown-0": 2 * 96_000},
    "One camera and two viewers": {"shown-0": 40 * 115_200, "shown-1": 40 * 115_200},
    "Two cameras side by side": {"shown-0": 40 * 230_400},
}


def blocks():
    """The heading and the commands of each block of pipelines."""
    heading, commands, inside = None, [], False
    with open(PAGE, encoding="utf-8") as it:
        text = it.read().replace("\\\n", " ")
    for line in text.split("\n"):
        if line.startswith("## "):
            heading = line[3:]
        elif line.startswith("```"):
            if inside and any(it.startswith("gst-launch-1.0") for it in commands):
                yield heading, [it for it in commands if it.startswith("gst-launch-1.0")]
            inside, commands = line == "```sh", []
        elif inside:
            commands.append(line)


def adapted(command, place, folder):
    """The words of a command, with sinks that are files. Paths of the page are those of the repository's root."""
    words = []
    for word in shlex.split(command):
        if word in ("autovideosink", "autoaudiosink"):
            words += ["filesink", f"location={folder}/shown-{place}"]
        elif re.match(r"location=\w+\.\w+$", word):
            words.append(f"location={folder}/{word[9:]}")
        else:
            words.append(word)
    return [words[0], "-e", "-q", *words[1:]]


def run(commands, folder):
    """Runs commands side by side. Returns what they said."""
    started = []
    for place, command in enumerate(commands):
        with open(f"{folder}/said-{place}", "w", encoding="utf-8") as said:
            words = adapted(command, place, folder)
            started.append((words, subprocess.Popen(words, cwd=ROOT, stdout=said, stderr=subprocess.STDOUT)))
        time.sleep(0.5)
    end = time.monotonic() + SECONDS
    while time.monotonic() < end and any(it.poll() is None for _, it in started):
        time.sleep(0.1)
    for _, it in reversed(started):
        if it.poll() is None:
            it.send_signal(signal.SIGINT)
    faults = []
    for place, (words, it) in enumerate(started):
        try:
            status = it.wait(timeout=20)
        except subprocess.TimeoutExpired:
            it.kill()
            status = "killed: no EOS"
        if status != 0:
            with open(f"{folder}/said-{place}", encoding="utf-8") as said:
                faults.append(f"{shlex.join(words)}: {status}\n{said.read()}")
    return faults


def main(work):
    seen, failed = 0, 0
    for heading, commands in blocks():
        folder = f"{work}/{re.sub(r'[^a-z]+', '-', heading.lower())}"
        os.makedirs(folder)
        faults = run(commands, folder)
        if heading not in WANTED:
            faults.append("this test does not say what it has to give")
        for name, least in WANTED.get(heading, {}).items():
            size = os.path.getsize(f"{folder}/{name}") if os.path.exists(f"{folder}/{name}") else 0
            if size < least:
                faults.append(f"{name}: {size} bytes, and {least} are wanted")
        seen += 1
        failed += bool(faults)
        for fault in faults:
            print(f"{heading}: {fault}")
    if seen != len(WANTED):
        print(f"the page has {seen} pipelines, and {len(WANTED)} are tested")
        failed += 1
    print(f"{seen} pipelines of the page, {failed} failed")
    return 1 if failed else 0


if __name__ == "__main__":
    sys.exit(main(sys.argv[1]))
