#!/usr/bin/env python3
"""`rt ci` over what earlier runs on this machine proved of the same sources, for a kit whose `rt ci` keeps nothing.

  scripts/kept_ci.py              does what `rt ci` does. What it proved stays in a folder of this machine, and is not proved there again
  scripts/kept_ci.py --anew       `rt ci`: proves everything

What is kept has a name with a SHA-256 of all that it depends on: the sources, definitions and proofs of the crate and of all crates below
it, its line in crates.txt, HANDLES, and the kit. So an edit of a comment proves a crate again, and all crates above it. Three things are
kept: the library or program of a crate, the program of its tests, and that its must-fail edits were refused. Programs and tests run
in each run. A kit such as 13f keeps proofs by itself; there this script runs `rt ci`. If rt cannot be loaded, it runs `rt ci` too.

The folder is CPAY_PROOFS, by default /var/cache/codec_payload_proofs, or the same in ~/.cache if that cannot be written. Whoever can
write there can forge proofs, as whoever can write to the kit can. Delete it to prove everything. The last line and the status are
those of `rt ci`.
"""
import glob
import hashlib
import importlib.machinery
import importlib.util
import json
import os
import shutil
import subprocess
import sys
import tempfile

sys.dont_write_bytecode = True
from kit import ROOT, with_marks_once  # noqa: E402  (the line before has to be first)


def folder():
    """Where proofs are kept: the first of these places that can be written; None if there is none."""
    places = [os.environ.get("CPAY_PROOFS"), "/var/cache/codec_payload_proofs", os.path.expanduser("~/.cache/codec_payload_proofs")]
    for place in filter(None, places):
        try:
            os.makedirs(place, exist_ok=True)
        except OSError:
            continue
        if os.access(place, os.W_OK):
            return place
    return None


def loaded():
    """The module of rt, or None if it keeps proofs by itself or cannot be loaded."""
    program = shutil.which("rt")
    said = subprocess.run([program, "help"], capture_output=True, text=True, check=False) if program else None
    if said is None or "--anew" in said.stdout + said.stderr:
        return None
    try:
        loader = importlib.machinery.SourceFileLoader("rt", os.path.realpath(program))
        rt = importlib.util.module_from_spec(importlib.util.spec_from_loader("rt", loader))
        loader.exec_module(rt)
        with_marks_once(rt.rtlib)
    except (AttributeError, OSError, SyntaxError, ValueError):
        return None
    wanted = (rt, "ci"), (rt, "must_fail_all"), (rt, "Crate"), (getattr(rt, "Crate", None), "ci")
    return rt if all(hasattr(of, name) for of, name in wanted) else None


class Kept:
    """The proofs that are kept."""

    def __init__(self, place):
        self.place = place

    def path(self, crate, what):
        with open(f"{ROOT}/HANDLES", encoding="utf-8") as file:
            handles = file.read()
        total = hashlib.sha256(repr((crate.stamp(), what, handles)).encode()).hexdigest()
        return f"{self.place}/{crate.name}-{what.split()[0]}-{total}"

    def save(self, crate, what):
        """Keeps what a proof left in the crate's out/: its library and programs, or the program of its tests."""
        path, out = self.path(crate, what), f"{crate.folder}/out"
        with tempfile.TemporaryDirectory(dir=self.place) as room:
            made = f"{room}/made"
            os.mkdir(made)
            if what == "proof" and os.path.isdir(f"{out}/rlib"):
                shutil.copytree(f"{out}/rlib", f"{made}/rlib")
            for file in filter(os.path.isfile, glob.glob(f"{out}/*")):
                if (f"{crate.name}_tests" in os.path.basename(file)) == (what == "tests"):
                    shutil.copy2(file, made)
            if not os.path.isdir(path):
                os.rename(made, path)

    def restore(self, crate, what):
        """Whether a proof is kept. Then the crate's out/ has what it left."""
        path = self.path(crate, what)
        if not os.path.isdir(path):
            return False
        shutil.copytree(path, f"{crate.folder}/out", dirs_exist_ok=True)
        return True

    def edits(self, crate, edits):
        """The file that says that these edits were refused."""
        texts = [open(it, "rb").read() for it in edits]
        return self.path(crate, f"edits {hashlib.sha256(repr(texts).encode()).hexdigest()}")


def keep_with(rt, kept):
    """Has `rt ci` ask for what is kept before it proves, and keep what it proved."""
    prove, try_edits = rt.Crate.ci, rt.must_fail_all

    def ci(crate, flags, tests):
        what = "tests" if tests else "proof"
        if kept.restore(crate, what):
            print("kept from an earlier run on this machine", file=crate.out, flush=True)
            return 0
        status = prove(crate, flags, tests)
        if status == 0:
            kept.save(crate, what)
        return status

    def must_fail_all(crate, edits, flags):
        path = kept.edits(crate, edits)
        if os.path.isfile(path):
            with open(path, encoding="utf-8") as file:
                return [tuple(it) for it in json.load(file)]
        tried = try_edits(crate, edits, flags)
        if all(refused for refused, _ in tried):
            with open(path, "w", encoding="utf-8") as file:
                json.dump(tried, file)
        return tried

    rt.Crate.ci, rt.must_fail_all = ci, must_fail_all


def main(words):
    if words not in ([], ["--anew"]):
        print("usage: scripts/kept_ci.py [--anew]", file=sys.stderr)
        return 2
    os.chdir(ROOT)
    rt, place = (None, None) if words else (loaded(), folder())
    if rt is None or place is None:
        return subprocess.run(["rt", "ci"], check=False).returncode
    keep_with(rt, Kept(place))
    return rt.main(["ci"])


if __name__ == "__main__":
    sys.exit(main(sys.argv[1:]))
