#!/usr/bin/env python3
"""Time and peak memory of reading large texts, measured by hand: bench/text.py [PROGRAM]

PROGRAM is the built program, crates/bulb/out/bulb unless it is given. Each text is read in the modes `print` and `check`
at a quarter, a half and the whole of 1,048,576 bytes, which is the most that the program takes; the best of three runs counts.
Reading is linear: the whole may take no more than eight times what a quarter takes (and 50 milliseconds, for the start).
The ratio is that of the whole text to bench/parser.rs: `print` to its reading and printing, `check` to its reading alone.
"""
import os
import tempfile

from measure import in_turn, program, ratio, yardstick

MOST_BYTES = 1_048_576
SIZES = (MOST_BYTES // 4, MOST_BYTES // 2, MOST_BYTES)
MODES = {"print": "print", "check": "read"}
START = 0.05


def filled(front, piece, back, size):
    """A text of this size: the front, as many pieces as fit, blanks, and the back."""
    times = (size - len(front) - len(back)) // len(piece)
    blanks = size - len(front) - len(back) - times * len(piece)
    return front + piece * times + b" " * blanks + back


def called(size):
    """256 functions, each of which calls later ones as often as the text has room."""
    share = (size - 256 * len("fn f000(){}")) // 254 // len("f000();")
    functions = ["fn init(){}fn loop(){}"]
    for caller in range(254):
        later = range(caller + 1, 254)
        calls = "".join(f"f{later[call % len(later)]:03}();" for call in range(share if later else 0))
        functions.append(f"fn f{caller:03}(){{{calls}}}")
    text = "".join(functions).encode()
    return text + b" " * (size - len(text))


def worst_graph():
    """256 functions in a chain of calls, and as many calls among them as the limit on code lets through: 1,534."""
    callees = [[caller + 1] for caller in range(253)] + [[]]
    more = [(caller, caller + 2 + turn) for turn in range(10) for caller in range(240)]
    for caller, callee in more[: 1534 - 254]:
        callees[caller].append(callee)
    functions = ["fn init(){f000();}fn loop(){}"]
    for caller, names in enumerate(callees):
        calls = "".join(f"f{callee:03}();" for callee in names)
        functions.append(f"fn f{caller:03}(){{{calls}}}")
    return "".join(functions).encode()


# Each text by its size, and the statuses that the two modes end with.
TEXTS = {
    "short commands": (lambda size: filled(b"fn init(){", b"x=1;", b"}fn loop(){}", size), (0, 4)),
    "short functions": (lambda size: filled(b"fn init(){}fn loop(){}", b"fn f(){}", b"", size), (0, 3)),
    "operations": (lambda size: filled(b"fn init(){", b"x=((a*^b)>>.(c==d));", b"}fn loop(){}", size), (0, 4)),
    "names of 32 bytes": (
        lambda size: filled(b"fn init(){", b"abcdefghijklmnopqrstuvwxyz_ABCDE=abcdefghijklmnopqrstuvwxyz_ABCDE;", b"}fn loop(){}", size),
        (0, 4),
    ),
    "arguments of one call": (lambda size: filled(b"fn init(){f(1", b",x", b");}fn loop(){}", size), (0, 3)),
    "one number": (lambda size: b"fn init(){x=" + b"0" * (size - 26) + b"1;}fn loop(){}", (0, 0)),
    "one number, wrong at its end": (lambda size: b"fn init(){x=" + b"0" * (size - 13) + b"a", (2, 2)),
    "one hexadecimal number": (lambda size: b"fn init(){x=0x" + b"0" * (size - 28) + b"f;}fn loop(){}", (0, 0)),
    "one comment": (lambda size: b"fn init(){}fn loop(){}//" + b"/" * (size - 24), (0, 0)),
    "comments": (lambda size: filled(b"fn init(){}", b"//\n", b"fn loop(){}", size), (0, 0)),
    "blanks": (lambda size: filled(b"fn init(){}", b"\n", b"fn loop(){}", size), (0, 0)),
    "calls among 256 functions": (called, (0, 4)),
}


def measure(mode, text, status, plain):
    """What the program and the yardstick take for one text. The yardstick knows no rules: it refuses only what is no program."""
    ours = ([program(), mode], status)
    theirs = ([plain, MODES[mode]], status if status == 2 else 0) if plain else None
    return in_turn(text, ours, theirs)


def main():
    print(f"{os.cpu_count()} cores")
    with tempfile.TemporaryDirectory() as folder:
        plain = yardstick("parser", folder)
        for name, (text_of, statuses) in TEXTS.items():
            for mode, status in zip(MODES, statuses):
                smaller = [measure(mode, text_of(size), status, None)[0] for size in SIZES[:-1]]
                whole, other = measure(mode, text_of(MOST_BYTES), status, plain)
                times = ", ".join(f"{run.seconds * 1000:.0f}" for run in [*smaller, whole])
                print(f"{name}, {mode}: {times} ms at a quarter, a half, the whole{ratio(whole, other)}; peak {whole.peak / 1e6:.1f} MB")
                if mode == "print" and other and status == 0 and other.printed != whole.printed:
                    raise SystemExit("the two printed texts differ")
                if whole.seconds > 8 * smaller[0].seconds + START:
                    raise SystemExit("reading is not linear")
        run, other = measure("check", worst_graph(), 0, plain)
        print(f"256 functions with 1,534 calls, check: {run.seconds * 1000:.0f} ms{ratio(run, other)}; peak {run.peak / 1e6:.1f} MB")


if __name__ == "__main__":
    main()
