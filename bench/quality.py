#!/usr/bin/env python3
"""How good the compiled code is, measured by hand: bench/quality.py [PROGRAM]

PROGRAM is the built program, crates/bulb/out/bulb unless it is given. Two programs stand in bench/quality in C: a loop of
arithmetic (arithmetic.c beside arithmetic.txt), and the supplied program (supplied.c). Both ways of each are compiled, by the
mode `compile` and by every C compiler for RISC-V that is found (GCC, or clang with ld.lld) with -O0 and -O1 for RV32IM. Told are the
words of code, and the instructions from boot up to the first write to the lamp's register, counted by bench/interpreter.rs.

The supplied program gets the replies of a run of the plain machine (bench/machine.rs) with a frame that switches the lamp
on. All the codes of one program have to make the same accesses of devices. It ends with 1 where they don't, or where ours
does more instructions than a compiler's -O0. Without rustc nothing is measured; without a C compiler, only ours.
"""
import os
import shutil
import struct
import subprocess
import sys
import tempfile

from machine import ON, Case, fields
from measure import HERE, compiled, printed, program, supplied, yardstick

LEVELS = ("-O0", "-O1")
EVENTS = 2_000_000
PREFIXES = ("riscv64-unknown-elf-", "riscv32-unknown-elf-", "riscv64-linux-gnu-")
FOR_ALL = "-march=rv32im -mabi=ilp32 -ffreestanding -fno-builtin -fno-pic -nostdlib -static -Wl,--build-id=none -Wall".split()


class Compiler:
    """A C compiler for RV32IM: its command, and how it calls itself."""

    def __init__(self, command):
        self.command = command
        told = subprocess.run([command[0], "--version"], stdout=subprocess.PIPE, check=True, universal_newlines=True)
        self.name = told.stdout.splitlines()[0]

    def flat(self, source, level, path):
        """Compiles a program to a flat file at address 0."""
        link = ["-T", os.path.join(HERE, "quality", "link.ld")]
        subprocess.run([*self.command, *FOR_ALL, level, *link, "-o", path, source], check=True)
        with open(path, "rb") as file:
            content = loaded(file.read())
        with open(path, "wb") as file:
            file.write(content)
        return path


def loaded(elf):
    """What an ELF file loads at address 0, its only segment that is loaded."""
    headers, size, count = struct.unpack_from("<I", elf, 28)[0], *struct.unpack_from("<HH", elf, 42)
    segments = [struct.unpack_from("<8I", elf, headers + size * number) for number in range(count)]
    ((_, offset, address, _, held, length, _, _),) = [segment for segment in segments if segment[0] == 1]
    if address != 0 or held != length:
        raise SystemExit("the linker made no flat program")
    return elf[offset: offset + held]


def compilers():
    """The C compilers that are there."""
    found = [Compiler([prefix + "gcc"]) for prefix in PREFIXES if shutil.which(prefix + "gcc")][:1]
    if shutil.which("clang") and shutil.which("ld.lld"):
        found.append(Compiler(["clang", "--target=riscv32-unknown-elf", "-fuse-ld=lld", "-Wno-unused-command-line-argument"]))
    return found


def counted(counter, code, replies):
    """The words of a code, its instructions to the switch, and the accesses that it made."""
    report = printed(([counter, "switch", code, replies], 0), b"")
    told = fields(report)
    if told["end"] != "switched":
        raise SystemExit(f"{code}: the run ends {told['end']} after {told['done']} instructions")
    return int(told["words"]), int(told["done"]), report[report.index(b"trace\n"):]


def recorded(folder, plain):
    """The replies of a run of the supplied program that switches the lamp on."""
    report = printed(Case(supplied(), [ON], folder).theirs(plain, "trace", events=EVENTS), b"").decode()
    lines = report[report.index("trace\n"):].splitlines()
    return "".join(line.split()[2] + "\n" for line in lines if line.startswith("ld"))


def measure(name, text, replies, counter, folder):
    """Prints a table of one program's codes. Answers whether ours does no more than any -O0."""
    given = os.path.join(folder, "replies")
    with open(given, "w", encoding="ascii") as file:
        file.write(replies)
    words, ours, accesses = counted(counter, compiled(text, os.path.join(folder, "ours")), given)
    print(f"{name}: {ours} instructions, {words} words")
    is_well = True
    for compiler in compilers():
        for level in LEVELS:
            flat = compiler.flat(os.path.join(HERE, "quality", f"{name}.c"), level, os.path.join(folder, "flat"))
            words, theirs, others = counted(counter, flat, given)
            print(f"    {level}: {theirs} instructions, {words} words; ours does {ours / theirs:.2f} times as many ({compiler.name})")
            if others != accesses:
                print("    the two make other accesses of devices")
                is_well = False
            if level == "-O0" and ours > theirs:
                print("    ours does more than -O0")
                is_well = False
    return is_well


def main():
    if not compilers():
        print("no C compiler for RISC-V here, so nothing beside ours")
    with tempfile.TemporaryDirectory() as folder:
        counter, plain = yardstick("interpreter", folder), yardstick("machine", folder)
        if not counter:
            return 0
        with open(os.path.join(HERE, "quality", "arithmetic.txt"), encoding="ascii") as file:
            arithmetic = file.read()
        results = [
            measure("arithmetic", arithmetic, "", counter, folder),
            measure("supplied", supplied(), recorded(folder, plain), counter, folder),
        ]
    return 0 if all(results) else 1


if __name__ == "__main__":
    sys.exit(main())
