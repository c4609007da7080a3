#!/usr/bin/env python3
"""Runs the tests with threads of their own many times in a row, on the machine as it is and then beside busy programs.

    python3 bench/schedules.py [--times 200] [--busy 8] [--seconds 60] [--only WORD ..] [--list]

The tests are those of `box_handoff` and `builds_tries` in which workers climb in threads: the worked example of two equal
triangles, by two threads of the test's own and by 2, 4 and 64 workers of both builds; boxes handed up in any order; and
whole runs at a gate where 2, 4 and 64 workers look out for each other and go for 4,097 batches each. A schedule is the
system's own, and differs from run to run.

It wants the programs that `rt test` leaves in `out/` of these crates, and no prover. A line for each test says how many
of its runs passed and how long the longest took. A run that fails, or takes longer than the seconds, makes the status 1.
"""

import argparse
import os
import subprocess
import sys
import time

HERE = os.path.dirname(os.path.abspath(__file__))
CRATES = ["box_handoff", "builds_tries"]

# a program that leaves its processor no rest
BUSY = [sys.executable, "-c", "while True: pass"]


def program_of(crate):
    return os.path.join(HERE, "..", "crates", crate, "out", f"{crate}_tests")


def tests_of(program):
    """The names of a program's tests."""
    listed = subprocess.run([program, "--list"], capture_output=True, text=True, check=True).stdout
    return [line[:-len(": test")] for line in listed.splitlines() if line.endswith(": test")]


def passes(program, test, seconds):
    """Whether a run of a test passes within its time, and how long it took."""
    began = time.monotonic()
    try:
        done = subprocess.run([program, test], capture_output=True, timeout=seconds, check=False)
        passed = done.returncode == 0 and b"test result: ok" in done.stdout + done.stderr
    except subprocess.TimeoutExpired:
        passed = False
    return passed, time.monotonic() - began


def round_of(tests, times, seconds):
    """Runs each test so many times in a row, prints a line for each, and answers how many runs failed."""
    failed = 0
    for program, test in tests:
        runs = [passes(program, test, seconds) for _ in range(times)]
        passed = sum(ok for ok, _ in runs)
        failed += times - passed
        longest = max(took for _, took in runs)
        print(f"  {test}: {passed} of {times} passed, at most {longest:.1f} s", flush=True)
    return failed


def main():
    parser = argparse.ArgumentParser(description="Runs the tests with threads many times in a row.")
    parser.add_argument("--times", type=int, default=200, help="how often each test runs")
    parser.add_argument("--busy", type=int, default=2 * (os.cpu_count() or 1), help="how many busy programs run beside")
    parser.add_argument("--seconds", type=float, default=60, help="how long a run may take")
    parser.add_argument("--only", nargs="+", metavar="WORD", default=[""], help="tests whose names have one of these")
    parser.add_argument("--list", action="store_true", help="name the tests and end")
    chosen = parser.parse_args()
    missing = [crate for crate in CRATES if not os.path.exists(program_of(crate))]
    if missing:
        sys.exit(f"no tests are built of {', '.join(missing)}: run `rt test` there first")
    tests = [(program_of(crate), test) for crate in CRATES for test in tests_of(program_of(crate))
             if any(word in test for word in chosen.only)]
    if chosen.list:
        print(*(test for _, test in tests), sep="\n")
        return
    print(f"as the machine is, with a load of {os.getloadavg()[0]:.1f}:")
    failed = round_of(tests, chosen.times, chosen.seconds)
    busy = []
    try:
        busy += [subprocess.Popen(BUSY) for _ in range(chosen.busy)]
        print(f"beside {chosen.busy} busy programs:")
        failed += round_of(tests, chosen.times, chosen.seconds)
    finally:
        for process in busy:
            process.kill()
            process.wait()
    print(f"{2 * chosen.times * len(tests)} runs of {len(tests)} tests, {failed} failed")
    sys.exit(1 if failed else 0)


if __name__ == "__main__":
    main()
