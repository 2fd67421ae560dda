#!/usr/bin/env python3
"""Speed and peak memory of the whole machine, measured by hand: bench/machine.py [PROGRAM], or bench/machine.py --test [PROGRAM]

PROGRAM is the built program, crates/bulb/out/bulb unless it is given. Each case is compiled, and the mode `run` fires 4,000,000
events by one worker. Printed are the ratio to bench/machine.rs, a plain machine that fires the same draws on the same image and has
to print the same report, byte by byte, with its trace and its log; events per second; and the peak memory, with its bound: log (2
bytes an event) and trace (12 bytes an access) as they lie in memory, and 16 MB. Then come events per second with 1, 2, 4 and 8
workers, and the time of the mode `lamp` beside that of `run` of the supplied program on the same frames.

--test compares bench/machine.rs alone with rows worked by hand: its own tests, and the supplied program on frames that switch the
lamp, and don't. It needs the mode `compile` and ends with 1 where there is a difference.
"""
import os
import sys
import tempfile

from measure import compiled, has_mode, in_turn, own_tests, printed, program, ratio, supplied, yardstick
from runs import CASES

EVENTS = 4_000_000
SHARED_EVENTS = 1_000_000
WORKERS = (1, 2, 4, 8)
SEED = 0
ENTRY_BYTES, EVENT_BYTES = 2, 12
MEGABYTE = 1024 * 1024
# A frame that switches the lamp on, and what makes it none.
ON = "ffffffffffff02000000000108004500001d00000000401100000a0000010a000002100010010009000001"
OFF = ON[:-2] + "00" + "00" * 17
SHORT = ON[:-2]
TCP = ON[:46] + "06" + ON[48:]
SWITCHES = "1001200c"


def section(frames):
    return "".join(frame + "\n" for frame in frames)


class Case:
    """A program with its frames, in the form of both programs."""

    def __init__(self, text, frames, folder):
        self.input = (text + "%%\n" + section(frames)).encode()
        self.image = compiled(text, os.path.join(folder, "image"))
        self.frames = os.path.join(folder, "frames")
        with open(self.frames, "w", encoding="ascii") as file:
            file.write(section(frames))

    def ours(self, *more, events=EVENTS, workers=1):
        options = ["--events", str(events), "--workers", str(workers), "--seed", str(SEED)]
        return [program(), "run", *options, *more], 0

    def theirs(self, plain, *more, events=EVENTS):
        return [plain, "run", self.image, self.frames, str(events), str(SEED), *more], 0


def fields(report):
    """The first lines of a report, by their first words."""
    return dict(line.split(" ", 1) for line in report.decode().splitlines() if " " in line)


def measure_case(name, case, plain):
    run, other = in_turn(case.input, case.ours(), case.theirs(plain) if plain else None)
    if plain:
        whole = in_turn(case.input, case.ours("--trace", "--log"), case.theirs(plain, "trace", "log"))
        if run.printed != other.printed or whole[0].printed != whole[1].printed:
            raise SystemExit(f"{name}: the two reports differ")
    told = fields(printed(case.ours(), case.input))
    bound = ENTRY_BYTES * EVENTS + EVENT_BYTES * int(told["mmio"]) + 16 * MEGABYTE
    print(
        f"{name}: {run.seconds * 1000:.0f} ms{ratio(run, other)}; {EVENTS / run.seconds / 1e6:.1f} million events per second, "
        f"{told['done']} instructions, {told['mmio']} accesses, peak {run.peak / 1e6:.1f} MB, bound {bound / 1e6:.1f} MB"
    )
    if run.peak > bound:
        raise SystemExit("the peak is over its bound")


def measure_workers(name, case):
    rates = []
    for workers in WORKERS:
        (run,) = in_turn(case.input, case.ours(events=SHARED_EVENTS, workers=workers))
        rates.append(SHARED_EVENTS / run.seconds / 1e6)
    told = ", ".join(f"{workers}: {rate:.2f}" for workers, rate in zip(WORKERS, rates))
    print(f"{name}, million events per second by workers: {told}; 8 beside 1: {rates[-1] / rates[0]:.2f}")


def measure_lamp(case, frames):
    options = ["--events", str(EVENTS), "--workers", "1", "--seed", str(SEED)]
    lamp = ([program(), "lamp", *options], 0)
    beside = in_turn(case.input, case.ours())[0]
    own = in_turn(section(frames).encode(), lamp)[0]
    # (`lamp` tells two lines more)
    lines = printed(lamp, section(frames).encode()).splitlines()
    if [line for line in lines if line.split()[0] not in (b"switches", b"rounds")] != printed(case.ours(), case.input).splitlines():
        raise SystemExit("lamp: its report isn't that of run of the supplied program")
    print(f"lamp: {own.seconds * 1000:.0f} ms, {own.seconds / beside.seconds:.2f} times run of the supplied program")


def run_cases(plain, folder):
    for name, text in CASES.items():
        measure_case(name, Case(text, [], folder), plain)
    frames = [SHORT, ON, TCP, OFF]
    case = Case(supplied(), frames, folder)
    measure_case("the supplied program", case, plain)
    measure_workers("the supplied program", case)
    if has_mode("lamp", section(frames)):
        measure_lamp(case, frames)
    measure_workers("an empty loop", Case(CASES["an empty loop"], [], folder))


# ---- the test of the yardstick

# Frames, how many events, and what the report and the trace have: frames that arrived, the lamp, and how often it was switched.
ROWS = [
    ([], 2_000_000, ("0", "off", 0)),
    ([SHORT, ON, TCP], 2_000_000, ("3", "on", 1)),
    ([ON, OFF], 4_000_000, ("2", "off", 2)),
    (["!" + ON], 4_000_000, ("1", "off", 0)),
]


def test(folder):
    plain = yardstick("machine", folder)
    if not plain:
        return 0
    status = 0 if own_tests("machine", folder) else 1
    for frames, events, expected in ROWS:
        case = Case(supplied(), frames, folder)
        report = printed(case.theirs(plain, "trace", events=events), b"")
        told, switches = fields(report), report.count(f"st {SWITCHES}".encode())
        found = (told["arrived"], told["lamp"], switches)
        if found != expected or told["end"] != "running":
            status = 1
            print(f"{len(frames)} frames, {events} events: {found}, end {told['end']}, not {expected}")
    print("the plain machine is as expected" if status == 0 else "the plain machine differs")
    return status


def main():
    is_test = sys.argv[1:2] == ["--test"]
    if is_test:
        del sys.argv[1]
    with tempfile.TemporaryDirectory() as folder:
        if is_test:
            return test(folder)
        print(f"{os.cpu_count()} cores")
        if not has_mode("run", CASES["an empty loop"]):
            return 2
        run_cases(yardstick("machine", folder), folder)
    return 0


if __name__ == "__main__":
    sys.exit(main())
