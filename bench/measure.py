"""What the bench scripts share: a run that is measured, and the yardstick, a plain Rust program that does the like.

Absolute times differ from machine to machine and from hour to hour. So both programs run in turn in one run of a script, the
best of three runs counts for each, and what is told is the ratio of the two.
"""
import hashlib
import os
import shutil
import subprocess
import sys
import tempfile
import time

HERE = os.path.dirname(os.path.abspath(__file__))
ROUNDS = 3

# (the text of the supplied program and the texts of another script, for the benches)
sys.path.append(os.path.join(HERE, "..", "scripts"))
from shared import script, supplied


class Measured:
    """The best of the runs of one command: seconds, peak memory in bytes, and the first line and the hash of what it printed.

    A child's peak is never less than what this script itself takes, so nothing large is kept here.
    """

    def __init__(self):
        self.seconds = float("inf")
        self.peak = 0
        self.first_line = b""
        self.printed = ""

    def run(self, command, text, status):
        """Runs the command once more, with this standard input; it has to end with this status."""
        with tempfile.TemporaryFile() as report, tempfile.TemporaryFile() as source:
            source.write(text)
            source.seek(0)
            begin = time.perf_counter()
            child = subprocess.Popen(command, stdin=source, stdout=report)
            _, ended, usage = os.wait4(child.pid, 0)
            seconds = time.perf_counter() - begin
            child.returncode = os.waitstatus_to_exitcode(ended)
            if status is not None and child.returncode != status:
                raise SystemExit(f"{' '.join(command)}: status {child.returncode}, not {status}")
            report.seek(0)
            self.first_line = report.readline()
            self.printed = hash_of(report)
        self.seconds = min(self.seconds, seconds)
        self.peak = max(self.peak, usage.ru_maxrss * 1024)


def hash_of(file):
    """The hash of a whole file, read in pieces."""
    file.seek(0)
    found = hashlib.sha256()
    while piece := file.read(65536):
        found.update(piece)
    return found.hexdigest()


def in_turn(text, *commands):
    """Runs the commands in turn, three times each. A command is a list of words and the status that it has to end with, None for any; it may be missing, as None."""
    found = [Measured() if command else None for command in commands]
    for _ in range(ROUNDS):
        for measured, command in zip(found, commands):
            if command:
                words, status = command
                measured.run(words, text, status)
    return found


def printed(command, text):
    """What a command prints on this standard input: a list of words and the status that it has to end with."""
    words, status = command
    ended = subprocess.run(words, input=text, stdout=subprocess.PIPE, check=False)
    if ended.returncode != status:
        raise SystemExit(f"{' '.join(words)}: status {ended.returncode}, not {status}")
    return ended.stdout


def program():
    """The program that is measured: the first word of the command line, or else the built one."""
    return sys.argv[1] if len(sys.argv) > 1 else os.path.join(HERE, "..", "crates", "bulb", "out", "bulb")


def compiled(text, path):
    """Writes the image of a program to a file, and answers the file's path."""
    with open(path, "wb") as file:
        subprocess.run([program(), "compile"], input=text.encode(), stdout=file, check=True)
    return path


def has_mode(mode, text):
    """Whether the program has a mode, by what it answers to it; where it hasn't, that is told."""
    ended = subprocess.run([program(), mode, "--events", "1"], input=text.encode(), stdout=subprocess.DEVNULL, check=False)
    if ended.returncode == 1:
        print(f"{program()} has no mode {mode}")
    return ended.returncode != 1


def yardstick(name, folder):
    """Builds bench/NAME.rs into the folder, and answers its path; without rustc it says so, and answers None."""
    if not shutil.which("rustc"):
        print("no rustc here, so no plain Rust beside it and no ratios")
        return None
    built = os.path.join(folder, name)
    subprocess.run(["rustc", "-O", "--edition", "2021", "-o", built, os.path.join(HERE, f"{name}.rs")], check=True)
    return built


def own_tests(name, folder):
    """Builds the tests that stand in bench/NAME.rs and runs them; answers whether they pass."""
    tests = os.path.join(folder, "tests")
    subprocess.run(["rustc", "--test", "--edition", "2021", "-o", tests, os.path.join(HERE, f"{name}.rs")], check=True)
    return subprocess.run([tests, "--quiet"], check=False).returncode == 0


def ratio(measured, plain):
    """The ratio of two times in words, empty where there is no yardstick."""
    return f", {measured.seconds / plain.seconds:.2f} times plain Rust" if plain else ""
