#!/usr/bin/env -S python3 -B
"""Runs the program opcheck over scripts that are deep, wide or long, under a hundred limits of address space each
(RLIMIT_AS, as by `ulimit -v`): from the least under which a script of an empty body is accepted up to the least under which
this script is. Each run has to give the ample answer, or status 3 with `out of memory` and whole lines that begin the ample
output: no crash, no other answer, no half line."""
import bisect
import resource
import sys
from concurrent.futures import ProcessPoolExecutor

import scripts
from harness import program_of, run

PROGRAM = program_of("opcheck")
STEPS = 100
AMPLE = 1 << 32
CASES = {
    "nested blocks": scripts.nested_blocks(20_000),
    "nested else": scripts.nested_else(10_000),
    "nested tries": scripts.nested_tries(10_000),
    "locals": scripts.many_locals(5_000),
    "wide calls": scripts.wide_calls(2_000, 20),
    "types": scripts.many_types(10_000),
    "a long table": scripts.long_table(30_000),
    "attempts": scripts.many_attempts(5_000),
    "exceptions": scripts.caught_exceptions(2_000),
    "a long text": scripts.long_text(10_000),
    "operands": scripts.many_operands(20_000),
}


def run_within(limit, script):
    """The status, the output and what is said of a script under this limit of bytes."""
    return run([PROGRAM], script, preexec_fn=lambda: resource.setrlimit(resource.RLIMIT_AS, (limit, limit)))


def is_want_of_memory(answer, ample):
    status, out, said = answer
    is_whole = not out or out.endswith("\n")
    return status == 3 and said == "out of memory\n" and is_whole and ample[1].startswith(out)


def least_limit(script, low):
    """The least limit of whole pages, from this one on, under which the script has its ample answer."""
    ample, limits = run_within(AMPLE, script), range(low, AMPLE, resource.getpagesize())
    return limits[bisect.bisect_left(limits, True, key=lambda limit: run_within(limit, script) == ample)]


def try_case(case):
    """What the runs of a script come to: how many want memory, have the ample answer, and are wrong."""
    name, script, low = case
    ample, high = run_within(AMPLE, script), least_limit(script, low)
    counts = [0, 0, 0]
    for step in range(STEPS):
        limit = low + (high - low) * step // (STEPS - 1)
        answer = run_within(limit, script)
        kind = 1 if answer == ample else 0 if is_want_of_memory(answer, ample) else 2
        counts[kind] += 1
        if kind == 2:
            print(f"{name}: under {limit} bytes: {answer[0]}, {answer[1][-60:]}, {answer[2][-60:]}")
    # each script wants memory somewhere, and has the ample answer at the end
    if ample[0] not in (0, 1) or not counts[0] or not counts[1]:
        counts[2] += 1
    print(f"{name}: {high / 1e6:.1f} MB, {counts[0]} want memory, {counts[1]} the ample answer, {counts[2]} wrong", flush=True)
    return counts


def main():
    low = least_limit(scripts.empty_body(), 0)
    print(f"an empty body: {low / 1e6:.1f} MB")
    # A process for each, since what runs between fork and exec stands no threads.
    with ProcessPoolExecutor() as pool:
        counts = list(pool.map(try_case, [(name, script, low) for name, script in CASES.items()]))
    wrong = sum(it[2] for it in counts)
    print(f"{len(counts)} scripts, {sum(map(sum, counts))} runs under limits of memory, {wrong} wrong")
    return wrong > 0


if __name__ == "__main__":
    sys.exit(main())
