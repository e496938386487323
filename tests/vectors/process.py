#!/usr/bin/env python3
"""Runs the programs over lines as processes: the stored input of each, every test vector of program_vectors.py and
datagram_vectors.py on a stack of 64 kilobytes, and for payload_vectors streams that fail and a limit of memory.

  tests/vectors/process.py                   payload_vectors and payload_datagrams of tools/lines, in plain Rust. Needs cargo
  tests/vectors/process.py --proved [COUNT]  payload_vectors as rt proves and builds it, also beside that of tools/lines on COUNT
                                       generated scripts, 1,000 by default. Needs rt and cargo

The last line says how many runs were right; the status is 0 if all were.
"""
import os
import resource
import signal
import socket
import subprocess
import sys
import tempfile
from concurrent.futures import ThreadPoolExecutor

import datagram_vectors
import program_vectors
from program_vectors import FIRST_OUTPUT, FIRST_RUN, OPUS

ROOT = os.path.dirname(os.path.dirname(os.path.dirname(os.path.realpath(__file__))))
LINES = os.path.join(ROOT, "tools", "lines")
CRATE = os.path.join(ROOT, "crates", "payload_vectors")
# The input and the output of each program.
STORED = {"payload_vectors": CRATE, "payload_datagrams": os.path.join(LINES, "payload_datagrams")}
ROWS = {"payload_vectors": program_vectors.ROWS, "payload_datagrams": datagram_vectors.ROWS}


def built(name):
    return os.path.join(LINES, "target", "release", name)


STACK = 64 * 1024
FAILED = b"input or output failed\n"


def build():
    subprocess.run(["cargo", "build", "--offline", "--quiet", "--release"], cwd=LINES, check=True)


def prove():
    """Proves and builds payload_vectors; returns its path."""
    if subprocess.run([os.path.join(ROOT, "scripts", "kit.py"), "free"], check=False).returncode != 0:
        sys.exit("another rt works in this copy")
    with open(f"{CRATE}/stdin", "rb") as given:
        ran = subprocess.run(["rt", "run"], cwd=CRATE, stdin=given, stdout=subprocess.PIPE, stderr=subprocess.STDOUT, check=False)
    if ran.returncode != 0:
        sys.exit(ran.stdout.decode(errors="replace"))
    return os.path.join(CRATE, "out", "payload_vectors")


def stored(program, name):
    """The stored input of a program, with its output."""
    folder = STORED[name]
    with open(f"{folder}/stdin", "rb") as given, open(f"{folder}/stdout", "rb") as output:
        ran = subprocess.run([program], stdin=given, capture_output=True, check=False)
        yield f"{name}: the stored input", (output.read(), 0, b""), (ran.stdout, ran.returncode, ran.stderr)


def small_stack():
    resource.setrlimit(resource.RLIMIT_STACK, (STACK, STACK))


def short_files():
    """Files end after eight bytes, and a write after that is an error and not a signal."""
    signal.signal(signal.SIGXFSZ, signal.SIG_IGN)
    resource.setrlimit(resource.RLIMIT_FSIZE, (8, 8))


def rows(program, name):
    """Compares the expected and the actual result of each test vector of a program."""
    for row in ROWS[name]:
        given = row.given.encode() if isinstance(row.given, str) else row.given
        ran = subprocess.run([program], input=given, capture_output=True, preexec_fn=small_stack, check=False)
        wanted = (row.output.encode(), row.status, row.message.encode())
        yield row.name, wanted, (ran.stdout, ran.returncode, ran.stderr)


def fails_at_a_read(program, text):
    """The standard input gives a text, and the read after it fails: the peer was closed with unread bytes."""
    near, far = socket.socketpair()
    far.send(b"?")
    near.sendall(text)
    near.close()
    ran = subprocess.run([program], stdin=far, capture_output=True, check=False)
    far.close()
    return ran.stdout, ran.returncode, ran.stderr


def fails_at_a_write(program, given, limited):
    """The standard output takes nothing, or eight bytes."""
    with tempfile.TemporaryFile() as kept, open("/dev/full", "wb") as full:
        ran = subprocess.run(
            [program],
            input=given,
            stdout=kept if limited else full,
            stderr=subprocess.PIPE,
            preexec_fn=short_files if limited else None,
            check=False,
        )
        kept.seek(0)
        return kept.read(), ran.returncode, ran.stderr


def without_messages(program, given):
    """The standard error takes nothing; the status is the same."""
    with open("/dev/full", "wb") as full:
        ran = subprocess.run([program], input=given, stdout=subprocess.PIPE, stderr=full, check=False)
        return ran.stdout, ran.returncode, b""


def little_memory():
    resource.setrlimit(resource.RLIMIT_AS, (16 << 20, 16 << 20))


def short_of_memory(program):
    """A script that asks for more memory than the process may have."""
    many = f"{OPUS}sample 0 0 {'00' * 100_000}\n" + "send 0 100000\n" * 1_000
    ran = subprocess.run([program], input=many.encode(), capture_output=True, preexec_fn=little_memory, check=False)
    yield "memory runs out", (b"", 1, b"out of memory\n"), (ran.stdout, ran.returncode, ran.stderr)


def streams(program):
    first = FIRST_RUN.encode()
    with open("/proc/self/mem", "rb") as nothing:
        ran = subprocess.run([program], stdin=nothing, capture_output=True, check=False)
    yield "the first read fails", (b"", 1, FAILED), (ran.stdout, ran.returncode, ran.stderr)
    yield "the second read fails", (b"", 1, FAILED), fails_at_a_read(program, first)
    yield "the first write fails", (b"", 1, FAILED), fails_at_a_write(program, first, limited=False)
    yield "the second write fails", (FIRST_OUTPUT[:8].encode(), 1, FAILED), fails_at_a_write(program, first, limited=True)
    yield "no message can be written", (b"", 2, b""), without_messages(program, f"{OPUS}pull\n".encode())


def beside(program, count):
    """Generated scripts, answered as the program in plain Rust does."""
    sys.path.insert(0, os.path.join(ROOT, "c", "tests"))
    import inputs  # pylint: disable=import-outside-toplevel

    def answer(path, script):
        ran = subprocess.run([path], input=script.encode(), capture_output=True, check=False)
        return ran.stdout, ran.returncode, ran.stderr

    def both(seed):
        script = inputs.generated(seed)
        return f"generated script {seed}", answer(built("payload_vectors"), script), answer(program, script)

    with ThreadPoolExecutor(os.cpu_count()) as pool:
        yield from pool.map(both, range(count))


def runs_of(program):
    """The runs of payload_vectors."""
    name = "payload_vectors"
    yield from [*stored(program, name), *rows(program, name), *streams(program), *short_of_memory(program)]


def main(words):
    build()
    if words[:1] == ["--proved"]:
        program = prove()
        asked = [*runs_of(program), *beside(program, int(words[1]) if words[1:] else 1_000)]
    else:
        name = "payload_datagrams"
        asked = [*runs_of(built("payload_vectors")), *stored(built(name), name), *rows(built(name), name)]
    promised = 0
    for name, wanted, found in asked:
        if wanted == found:
            promised += 1
        else:
            print(f"{name}: {[it[:200] if isinstance(it, bytes) else it for it in found]} in place of "
                  f"{[it[:200] if isinstance(it, bytes) else it for it in wanted]}")
    print(f"{len(asked)} runs, {promised} as promised")
    return 0 if len(asked) == promised else 1


if __name__ == "__main__":
    sys.exit(main(sys.argv[1:]))
