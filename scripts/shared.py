"""What scripts and benches share: another script as a module, the text of the supplied program, and runs by `rt try`."""
import importlib.machinery
import importlib.util
import os
import re
import subprocess
import sys
import tempfile

TOP = os.path.dirname(os.path.dirname(os.path.abspath(__file__)))


def script(name):
    """A script of this folder as a module. Its file has no ending, so that `import` doesn't find it."""
    sys.dont_write_bytecode = True
    loader = importlib.machinery.SourceFileLoader(name, f"{TOP}/scripts/{name}")
    module = importlib.util.module_from_spec(importlib.util.spec_from_loader(name, loader))
    loader.exec_module(module)
    return module


def supplied():
    """The text of the supplied program, out of the crate that has it."""
    with open(f"{TOP}/crates/lb_bulb/src/text.rt", encoding="utf-8") as file:
        text = file.read()
    begin = text.index('b"\\\n') + len('b"\\\n')
    return text[begin: text.index('\n"\n', begin) + 1]


def tried(cases, flags=()):
    """Runs the program, which `rt try` builds with these flags and without any proof, on cases: a name with its words and its
    input. Answers for each name that ended its status and what it printed, and all that `rt try` told beside."""
    with tempfile.TemporaryDirectory() as folder:
        for name, (words, given) in cases.items():
            for ending, content in (("", given), (".args", "\n".join(words).encode())):
                with open(f"{folder}/{name}{ending}", "wb") as file:
                    file.write(content)
        command = ["rt", "try", *flags, "--cases", folder]
        ended = subprocess.run(command, cwd=f"{TOP}/crates/bulb", stdin=subprocess.DEVNULL, capture_output=True)
    told = ended.stderr.decode("utf-8", "replace")
    ends = {}
    for name, status in re.findall(r"(?m)^case=(\S+) run=ended status=(\d+) ", told):
        _, begun, rest = ended.stdout.partition(f"== {name}\n".encode())
        output = re.split(rb"(?m)^== \w+\n", rest, maxsplit=1)[0] if begun else b""
        ends[name] = int(status), output
    return ends, told
