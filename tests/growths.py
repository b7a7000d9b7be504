#!/usr/bin/env -S python3 -B
"""Runs each test of validate_tests under want of memory (tests/c/growths.c): each request for memory of each test is
refused in turn, and the test has to end there, and to say that memory is wanting."""
import sys
import tempfile
from pathlib import Path

from harness import need, program_of, run, run_preloaded


def main():
    program = program_of("validate_tests", "validate_tests_tests")
    need("gcc")
    _, listed, _ = run([program, "--list"])
    tests = [it.removesuffix(": test") for it in listed.splitlines() if it.endswith(": test")]
    with tempfile.TemporaryDirectory() as room:
        requests, wrong = run_preloaded("growths", program, tests, Path(room))
    print(f"{len(tests)} tests, {requests} requests, each refused alone: {wrong} wrong")
    return wrong > 0 or requests == 0


sys.exit(main())
