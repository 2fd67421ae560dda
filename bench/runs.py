#!/usr/bin/env python3
"""Speed and peak memory of long runs, measured by hand: bench/runs.py [PROGRAM], or bench/runs.py --test [PROGRAM]

PROGRAM is the built program, crates/bulb/out/bulb unless it is given. Each case is compiled, and its code runs for 4,000,000
instructions in the mode `isa`; then the source is interpreted in the mode `interp` with 4,000,000 units of fuel. Printed are, of
each, the ratio to plain Rust, to bench/interpreter.rs, which runs the code of the same image, and to bench/source.rs, which walks
the source's tree. Each has to print the same report, byte by byte, with its trace; `interp` is measured without it. Of `isa` there
are also instructions per second, the peak memory, and the bound that it has to stay below: the trace as it lies in memory (12 bytes
an event) and its text, and 24 MB. The second part compiles texts that fill the code to its limit.

--test compares bench/source.rs with rows worked by hand: its own tests, and the texts of scripts/programs, each of which says how
many accesses it makes. On these it has to print the report of `interp`, too. It ends with 1 where there is a difference.
"""
import os
import sys
import tempfile

from measure import Measured, compiled, in_turn, own_tests, printed, program, ratio, script, yardstick

STEPS = 4_000_000
FUEL = 1_000_000
EVENT_BYTES = 12
LINE_BYTES = 21
MEGABYTE = 1024 * 1024
CASES = {
    "a loop that writes for ever": "fn init() {\n}\nfn loop() {\n  MMIOWRITE(268509196, 1);\n}\n",
    "an empty loop": "fn init() {\n}\nfn loop() {\n}\n",
    "a loop of arithmetic": (
        "fn init() {\n  x = 1;\n  while 1 {\n    x = ((x * 1103515245) + 12345);\n"
        "    y = ((x >> 16) % 1000);\n  }\n}\nfn loop() {\n}\n"
    ),
    "a loop of loads and stores": (
        "fn init() {\n  stackalloc 400 as p {\n    i = 0;\n    while (i < 100) {\n      store4((p + (i * 4)), i);\n      i = (i + 1);\n    }\n    while 1 {\n      store4((p + ((i % 100) * 4)), (load4((p + (((i + 1) % 100) * 4)))"
        " + i));\n      i = (i + 1);\n    }\n  }\n}\nfn loop() {\n}\n"
    ),
    "a loop of calls": (
        "fn init() {\n  x = 0;\n  while 1 {\n    x = sum(x, 1);\n  }\n}\nfn loop() {\n}\nfn sum(a, b) -> (c) {\n  c = (a + b);\n}\n"
    ),
}


def assignments(count, names):
    """A program of so many assignments over so many variables."""
    lines = "".join(f"v{k % names} = v{(7 * k + 3) % names};\n" for k in range(count))
    return f"fn init() {{\n}}\nfn loop() {{\n{lines}}}\n"


LARGE = {
    "2,300 assignments over 10 variables": assignments(2300, 10),
    "2,300 assignments over 400 variables": assignments(2300, 400),
    "1,150 assignments over 1,150 variables": assignments(1150, 1150),
}


def measure_code(name, text, image, plain):
    ours = ([program(), "isa", "--trace", "--events", str(STEPS)], 0)
    theirs = ([plain, "run", image, str(STEPS)], 0) if plain else None
    run, other = in_turn(text, ours, theirs)
    if other and other.printed != run.printed:
        raise SystemExit(f"{name}: the two reports differ")
    events = int(printed(([program(), "isa", "--events", str(STEPS)], 0), text).split()[3])
    bound = (EVENT_BYTES + LINE_BYTES) * events + 24 * MEGABYTE
    print(
        f"{name}: {run.seconds * 1000:.0f} ms{ratio(run, other)}; {STEPS / run.seconds / 1e6:.1f} million "
        f"instructions per second, {events} events, peak {run.peak / 1e6:.1f} MB, bound {bound / 1e6:.1f} MB"
    )


def measure_source(name, text, image, plain):
    ours = [program(), "interp", "--events", str(STEPS)]
    theirs = [plain, image, str(STEPS)]
    run, other = in_turn(text, (ours, 0), (theirs, 0) if plain else None)
    if plain:
        traced = Measured(), Measured()
        traced[0].run([*ours, "--trace"], text, 0)
        traced[1].run([*theirs, "trace"], text, 0)
        if run.printed != other.printed or traced[0].printed != traced[1].printed:
            raise SystemExit(f"{name}: the two reports of the source differ")
    print(f"    interp of 4,000,000 units of fuel: {run.seconds * 1000:.0f} ms{ratio(run, other)}; peak {run.peak / 1e6:.1f} MB")


def run_cases(folder):
    plain = yardstick("interpreter", folder)
    plain_source = yardstick("source", folder) if plain else None
    for name, text in CASES.items():
        image = compiled(text, os.path.join(folder, "image"))
        measure_code(name, text.encode(), image, plain)
        measure_source(name, text.encode(), image, plain_source)


def compile_large():
    for name, text in LARGE.items():
        done, _ = in_turn(text.encode(), ([program(), "compile"], 0), None)
        checked, _ = in_turn(text.encode(), ([program(), "check"], 0), None)
        print(f"compile {name}: {done.seconds * 1000:.0f} ms, of which check takes {checked.seconds * 1000:.0f}; peak {done.peak / 1e6:.1f} MB")


# ---- the test of the yardstick


def test(folder):
    plain = yardstick("source", folder)
    if not plain:
        return 0
    status = 0 if own_tests("source", folder) else 1
    for case in script("compare").written():
        text = case.input.decode().split("%%\n")[0]
        image = compiled(text, os.path.join(folder, "image"))
        report = printed(([plain, image, str(FUEL), "trace"], 0), case.input)
        if not report.startswith(f"mmio {case.count}\nend starved\n".encode()):
            status = 1
            print(f"{case.name}: {report.splitlines()[:2]}, where {case.count} accesses are expected")
        if report != printed(([program(), "interp", "--events", str(FUEL), "--trace"], 0), case.input):
            status = 1
            print(f"{case.name}: the report isn't that of interp")
    print("the plain interpreter is as expected" if status == 0 else "the plain interpreter differs")
    return status


def main():
    is_test = sys.argv[1:2] == ["--test"]
    if is_test:
        del sys.argv[1]
    with tempfile.TemporaryDirectory() as folder:
        if is_test:
            return test(folder)
        print(f"{os.cpu_count()} cores")
        run_cases(folder)
    compile_large()
    return 0


if __name__ == "__main__":
    sys.exit(main())
