#!/usr/bin/env python3
"""Time of reading lines: logs, frames, replies and traces, measured by hand: bench/lines.py [PROGRAM]

PROGRAM is the built program, crates/bulb/out/bulb unless it is given. Its mode `replay` reads logs of up to 516,000 entries, which
is what an input has room for, and 64 frames of 2,000 bytes. Where the first entry of a log can't be fired, all of it is read
and nothing replayed: that is the reading alone. The ratio is to bench/machine.rs, which reads the same and has to print the same. The
modes `interp` and `judge` read replies and traces. Each text is measured whole and at its half: reading is linear, so that the
whole may take no more than four times what a half takes (and 50 milliseconds, for the start). A mode that the program hasn't is left out.
"""
import os
import subprocess
import sys
import tempfile

from measure import compiled, has_mode, in_turn, program, ratio, supplied, yardstick

EMPTY = "fn init() { } fn loop() { }\n"
READS = "fn init() { }\nfn loop() {\n  x = MMIOREAD(0x10024048);\n}\n"
ENTRIES = 516_000
ENTRIES_IN_A_LINE = 32
REPLIES = 116_000
EVENTS = 20_000
MOST_EVENTS = 4_000_000
FRAMES = 64
START = 0.05


def lines(entries, width):
    """A log as text, with so many entries to a line."""
    step = 2 * width
    return "".join(entries[at: at + step] + "\n" for at in range(0, len(entries), step))


class Text:
    """An input of one mode, with the sections of the yardstick's files, where it knows the mode."""

    def __init__(self, name, mode, sections, status, words=()):
        self.name = name
        self.mode = mode
        self.sections = sections
        self.status = status
        self.words = list(words)

    def input(self):
        return "%%\n".join(self.sections).encode()

    def theirs(self, plain, folder):
        if plain is None or self.mode != "replay":
            return None
        source, *rest = self.sections
        paths = [compiled(source, os.path.join(folder, "image"))]
        for name, content in zip(("frames", "log"), rest):
            paths.append(os.path.join(folder, name))
            with open(paths[-1], "w", encoding="ascii") as file:
                file.write(content)
        return [plain, "replay", *paths], 0


def fired(plain, text, events, part, folder):
    """The trace or the log of a program, as the plain machine fires it without frames."""
    image, none = compiled(text, os.path.join(folder, "image")), os.path.join(folder, "none")
    with open(none, "w", encoding="ascii"):
        pass
    command = [plain, "run", image, none, str(events), "0", part]
    report = subprocess.run(command, stdout=subprocess.PIPE, check=True, universal_newlines=True).stdout
    return report[report.index(f"{part}\n") + len(part) + 1:]


def texts(part, log, trace):
    """The texts, of one, a half and so on of their size. The log and the trace that were fired may end anywhere."""
    count = ENTRIES // part
    refused = ("D0" + "F1X2W3S4" * (count // 4))[: 2 * count]
    if log:
        yield Text("a log, replayed", "replay", [EMPTY, "", lines(log[: 2 * count], ENTRIES_IN_A_LINE)], 0)
    yield Text("a log", "replay", [EMPTY, "", lines(refused, ENTRIES_IN_A_LINE)], 5)
    yield Text("a log in one line", "replay", [EMPTY, "", lines(refused, count)], 5)
    yield Text("a log, an entry to a line", "replay", [EMPTY, "", lines(refused[: count * 4 // 3], 1)], 5)
    frames = "".join(f"{number:02x}" * 2_000 + "\n" for number in range(FRAMES // part))
    yield Text(f"{FRAMES} frames of 2,000 bytes", "replay", [EMPTY, frames, "D0\n"], 5)
    replies = "".join(f"{number:08x}\n" for number in range(REPLIES // part))
    yield Text(f"{REPLIES:,} replies", "interp", [READS, replies], 0, ["--events", "4000000"])
    if trace:
        events = trace.splitlines(True)[: EVENTS // part]
        yield Text(f"a trace of {EVENTS:,} events", "judge", ["".join(events)], 0)


def measure(text, plain, folder):
    ours = ([program(), text.mode, *text.words], text.status)
    return in_turn(text.input(), ours, text.theirs(plain, folder))


def main():
    print(f"{os.cpu_count()} cores")
    with tempfile.TemporaryDirectory() as folder:
        plain = yardstick("machine", folder)
        log = fired(plain, EMPTY, ENTRIES, "log", folder).replace("\n", "") if plain else ""
        trace = fired(plain, supplied(), MOST_EVENTS, "trace", folder) if plain else ""
        modes = [mode for mode in ("replay", "interp", "judge") if has_mode(mode, "" if mode == "judge" else EMPTY)]
        for whole, half in zip(texts(1, log, trace), texts(2, log, trace)):
            if whole.mode not in modes:
                continue
            smaller, _ = measure(half, None, folder)
            run, other = measure(whole, plain, folder)
            print(
                f"{whole.name}: {smaller.seconds * 1000:.0f}, {run.seconds * 1000:.0f} ms at a half, the whole"
                f"{ratio(run, other)}"
            )
            if other and other.printed != run.printed:
                raise SystemExit("the two outputs differ")
            if run.seconds > 4 * smaller.seconds + START:
                raise SystemExit("reading is not linear")
    return 0


if __name__ == "__main__":
    sys.exit(main())
