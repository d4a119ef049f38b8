"""What the benchmarks of Wasm modules share: a module of real code in the greatest size, and a run of the program or of
`wasm-validate` (Debian's package wabt) on it."""
import os
import shutil
import subprocess
import sys
import time

HERE = os.path.dirname(os.path.abspath(__file__))
EXAMPLES = os.path.join(HERE, "..", "examples", "wasm")
sys.path.insert(0, EXAMPLES)
from limits import MOST_MODULE_BYTES, number

PROGRAM = os.path.join(HERE, "..", "crates", "fvm_run", "out", "fvm_run")
REAL = os.path.join(EXAMPLES, "rustc.wasm")
OUT = os.path.join(HERE, "out")
FUNCTIONS, EXPORTS, CODE = 3, 7, 10
PEAK = """
import resource, subprocess, sys
with open(sys.argv[2], "rb") as source:
    subprocess.run([sys.argv[1], "check"], stdin=source, stdout=subprocess.DEVNULL, stderr=subprocess.DEVNULL)
print(resource.getrusage(resource.RUSAGE_CHILDREN).ru_maxrss * 1024)
"""


def read_number(data, at):
    value = shift = 0
    while True:
        byte = data[at]
        value, shift, at = value | (byte & 127) << shift, shift + 7, at + 1
        if byte < 128:
            return value, at


def sections(module):
    at, found = 8, []
    while at < len(module):
        kind = module[at]
        size, begin = read_number(module, at + 1)
        found.append((kind, module[begin:begin + size]))
        at = begin + size
    return found


def joined(parts):
    return b"\0asm\1\0\0\0" + b"".join(bytes([kind]) + number(len(content)) + content for kind, content in parts)


def repeated(module):
    """The module with its functions repeated, as often as it stays within the greatest size; custom sections are left out."""
    parts = [(kind, content) for kind, content in sections(module) if kind != 0]
    contents = dict(parts)
    count, types = read_number(contents[FUNCTIONS], 0)
    _, bodies = read_number(contents[CODE], 0)
    types, bodies = contents[FUNCTIONS][types:], contents[CODE][bodies:]
    times = (MOST_MODULE_BYTES - len(module)) // (len(types) + len(bodies))

    def many(kind, content):
        if kind == FUNCTIONS:
            return number(count * times) + types * times
        return number(count * times) + bodies * times if kind == CODE else content

    return joined([(kind, many(kind, content)) for kind, content in parts])


def without_entry(module):
    """The same module, whose function `invoke` has another name: it is refused before its bodies are judged."""
    return joined([(kind, content.replace(b"\6invoke", b"\6unused") if kind == EXPORTS else content)
                   for kind, content in sections(module)])


def prepare():
    """The paths of a module of real code in the greatest size, and of the same one without an entry."""
    if not os.path.exists(PROGRAM):
        sys.exit("the program is not built yet: ./fvm or rt ci builds it")
    os.makedirs(OUT, exist_ok=True)
    with open(REAL, "rb") as file:
        whole = repeated(file.read())
    paths = []
    for name, module in (("whole.wasm", whole), ("no-entry.wasm", without_entry(whole))):
        paths.append(os.path.join(OUT, name))
        with open(paths[-1], "wb") as file:
            file.write(module)
    print(f"module: {len(whole)} bytes")
    return paths


def checked(path, status):
    """How long `fvm check` takes on a module, which must end with this status."""
    with open(path, "rb") as source:
        began = time.perf_counter()
        done = subprocess.run([PROGRAM, "check"], stdin=source, stdout=subprocess.DEVNULL, stderr=subprocess.PIPE)
        if done.returncode != status:
            sys.exit(f"{path}: status {done.returncode}, {done.stderr.decode()}")
        return time.perf_counter() - began


def validated(path):
    """How long `wasm-validate` takes on a module."""
    if not shutil.which("wasm-validate"):
        sys.exit("wasm-validate is not there: install Debian's package wabt")
    began = time.perf_counter()
    subprocess.run(["wasm-validate", path], check=True)
    return time.perf_counter() - began


def peak(path):
    """The most memory that `fvm check` has on a module, in bytes."""
    return int(subprocess.run([sys.executable, "-c", PEAK, PROGRAM, path], stdout=subprocess.PIPE, check=True).stdout)
