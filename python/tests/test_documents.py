"""The programs in docs/use/PYTHON.md run; its other blocks are parts of the examples, which scripts/documents.py compares."""
import os
import re
import subprocess
import sys

PAGE = os.path.join(os.path.dirname(__file__), "../../docs/use/PYTHON.md")


def test_programs():
    with open(PAGE, encoding="utf-8") as it:
        (program,) = re.findall(r"```python\n((?:from|import) .*?)```", it.read(), re.S)
    done = subprocess.run([sys.executable, "-c", program], capture_output=True, text=True, check=True)
    assert done.stdout.splitlines() == [
        "skipped: the RTP packet is shorter than its fixed header",
        *["a frame of 2000 bytes"] * 3,
    ]
