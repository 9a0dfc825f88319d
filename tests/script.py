"""What the scripts of tests beside the modules of unittest share: the program as first argument, and a count of their cases.

A script imports this module before any other of this folder.
"""
import os
import shlex
import sys

if len(sys.argv) > 1:
    os.environ["PROGRAM"] = sys.argv[1]
results = {"passed": 0, "failed": 0}


def say(name, fault):
    """A case, which fails by a fault that isn't empty."""
    results["failed" if fault else "passed"] += 1
    print(f"program: {name}: {'FAILED: ' + fault if fault else 'ok'}", flush=True)
    if fault:
        print(f"program: again by: {shlex.join([os.path.abspath(sys.argv[0]), *sys.argv[1:]])}", flush=True)


def skip(name, why):
    """A case that this machine lacks something for: neither passed nor failed."""
    print(f"program: {name}: skipped: {why}", flush=True)
