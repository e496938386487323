"""What the tests share: the program that is tested, what holds of it, and the last line."""

import os
import sys

PROGRAM = os.path.abspath(sys.argv[1] if len(sys.argv) > 1 else os.path.join(os.path.dirname(os.path.realpath(__file__)), "..", "rtp_record"))
counts = {"passed": 0, "failed": 0}


def check(holds, what):
    counts["passed" if holds else "failed"] += 1
    if not holds:
        print(f"does not hold: {what}")


def status_of_checks():
    """Prints `N passed, N failed`, and gives the status of the test."""
    print(f"{counts['passed']} passed, {counts['failed']} failed")
    return 1 if counts["failed"] else 0
