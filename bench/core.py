#!/usr/bin/env python3
"""Speed of the pipelined core, measured by hand: bench/core.py [PROGRAM]

PROGRAM is the built program crates/lb_core_bench/out/lb_core_bench unless it is given. It fires the six kinds in turn,
60,000,000 turns, on a loop with a load, a store and a branch. Printed are the ratio to bench/core.rs, which does the like and has
to print the same counts, and the steps per second.
"""
import os
import sys
import tempfile

from measure import HERE, in_turn, ratio, yardstick

TURNS = "60000000"


def main():
    built = os.path.join(HERE, "..", "crates", "lb_core_bench", "out", "lb_core_bench")
    program = sys.argv[1] if len(sys.argv) > 1 else built
    print(f"{os.cpu_count()} cores")
    with tempfile.TemporaryDirectory() as folder:
        plain = yardstick("core", folder)
        theirs = ([plain, TURNS], 0) if plain else None
        run, other = in_turn(b"", ([program, TURNS], 0), theirs)
        if other and other.printed != run.printed:
            raise SystemExit("the two counts differ")
        steps = int(run.first_line.split()[1])
        print(f"{steps} steps: {run.seconds * 1000:.0f} ms{ratio(run, other)}; {steps / run.seconds / 1e6:.1f} million steps per second")


if __name__ == "__main__":
    main()
