"""What the checks of documents and header share: faults go to standard error, one line each, and make the exit status 1."""
import sys


def report(page, faults, good):
    for fault in faults:
        print(f"{page}: {fault}", file=sys.stderr)
    if not faults:
        print(f"{page}: {good}")
    return 1 if faults else 0
