#!/usr/bin/env python3
"""Speed of the mode `gen`, measured by hand: bench/large.py [PROGRAM], or bench/large.py --test [PROGRAM]

PROGRAM is the built program, crates/bulb/out/bulb unless it is given. For each seed it makes the large program of the seed,
checks, compiles and runs it. Printed is the ratio to bench/large.rs, which makes and runs the same program, but neither checks nor
compiles it: it is handed the image, which the mode `compile` wrote before from the text of scripts/large. Both have to print the
same report, byte by byte, with its trace; they are measured without it. Beside the ratio stands the time of the mode `compile` on
that text: it reads, checks and compiles, of which plain Rust does nothing.

--test compares bench/large.rs with rows worked by hand, its own tests, and with the report of the model of scripts/large and that
of PROGRAM, for more seeds. It ends with 1 where there is a difference.
"""
import os
import sys
import tempfile

from measure import compiled, in_turn, own_tests, printed, program, ratio, script, yardstick

SEEDS = [0, 1, 7, 2**32 - 1]
DRAWN_SEEDS = 8
large = script("large")


class Case:
    """A seed with its program's text and image, in the form of both programs."""

    def __init__(self, seed, folder):
        self.seed = str(seed)
        self.text = large.compare.text_of(large.made(seed))
        self.image = compiled(self.text, os.path.join(folder, "image"))

    def ours(self, *more):
        return [program(), "gen", "--seed", self.seed, *more], 0

    def theirs(self, plain, *more):
        return [plain, self.seed, self.image, *more], 0


def measure_case(case, plain):
    compiling = ([program(), "compile"], 0)
    run, compiles, other = in_turn(case.text.encode(), case.ours(), compiling, case.theirs(plain) if plain else None)
    if plain:
        traced = printed(case.ours("--trace"), b""), printed(case.theirs(plain, "trace"), b"")
        if run.printed != other.printed or traced[0] != traced[1]:
            raise SystemExit(f"seed {case.seed}: the two reports differ")
    left_out = ", which neither checks nor compiles" if other else ""
    print(
        f"seed {case.seed}: {run.seconds * 1000:.1f} ms{ratio(run, other)}{left_out}; "
        f"compile of its text {compiles.seconds * 1000:.1f} ms"
    )


# ---- the test of the yardstick


def test(folder):
    plain = yardstick("large", folder)
    if not plain:
        return 0
    status = 0 if own_tests("large", folder) else 1
    for seed in large.EDGES + [next(large.draws(number)) for number in range(DRAWN_SEEDS)]:
        case = Case(seed, folder)
        report = printed(case.theirs(plain, "trace"), b"")
        for name, expected in (("the model", large.report(seed).encode()), ("gen", printed(case.ours("--trace"), b""))):
            if report != expected:
                status = 1
                print(f"seed {seed}: the report isn't that of {name}")
    print("the plain large programs are as expected" if status == 0 else "the plain large programs differ")
    return status


def main():
    is_test = sys.argv[1:2] == ["--test"]
    if is_test:
        del sys.argv[1]
    with tempfile.TemporaryDirectory() as folder:
        if is_test:
            return test(folder)
        print(f"{os.cpu_count()} cores")
        plain = yardstick("large", folder)
        for seed in SEEDS:
            measure_case(Case(seed, folder), plain)
    return 0


if __name__ == "__main__":
    sys.exit(main())
