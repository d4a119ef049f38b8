#!/usr/bin/env python3
"""Asks `fvm check` of modules at each limit and one past it, and of one module for each kind of fault that `check` gives.

    examples/wasm/limits.py [PROGRAM]       ./fvm where absent

Each module is built here from the binary format (WebAssembly Core Specification 1.0, section 5), and so is the line that
must come of it: where a count is too great, its offset is counted while the module is built. Prints each answer that
differs, and ends with how many agreed.
"""
import os
import subprocess
import sys

TOP = os.path.join(os.path.dirname(os.path.abspath(__file__)), "..", "..")
I32, I64, END = b"\x7f", b"\x7e", b"\x0b"
MOST_MODULE_BYTES = 4_194_304


def number(value):
    spelled = b""
    while value >= 128:
        spelled += bytes([128 + value % 128])
        value //= 128
    return spelled + bytes([value])


def vector(items):
    return number(len(items)) + b"".join(items)


def sized(content):
    return number(len(content)) + content


def constant(value=0, wide=False):
    return (b"\x42" if wide else b"\x41") + number(value) + END


def body(code, locals_=()):
    return sized(vector([number(count) + kind for count, kind in locals_]) + code + END)


class Module:
    """The smallest module with an entry, some of whose sections are exchanged for others."""

    def __init__(self, types=(b"\x60\x01\x7f\x01\x7f",), functions=(0,), tables=(), memories=(b"\x00\x01",), globals_=(),
                 exports=(), elements=(), bodies=None, segments=(), custom=0, entry=b"\0"):
        named = [sized(b"memory") + b"\2\0", sized(b"invoke") + b"\0" + entry]
        bodies = [body(b"\x41\x00")] * len(functions) if bodies is None else bodies
        self.counts = (len(types), 0, len(functions))
        parts = [(1, types), (3, [number(index) for index in functions]), (4, tables), (5, memories), (6, globals_),
                 (7, named + list(exports)), (9, elements), (10, bodies), (11, segments)]
        self.bytes, self.count_at = b"\0asm\1\0\0\0", {}
        for kind, items in parts:
            if items:
                content = vector(list(items))
                self.bytes += bytes([kind]) + number(len(content))
                self.count_at[kind] = len(self.bytes)
                self.bytes += content
        if custom:
            # A custom section that fills the module up to so many bytes.
            left = custom - len(self.bytes) - 1 - 4
            self.bytes += b"\0" + number(left) + b"\1x" + bytes(left - 2)
            assert len(self.bytes) == custom

    def fine(self, pages=1):
        return "ok types %d imports %d functions %d pages %d" % (*self.counts, pages)

    def limit(self, kind):
        return f"refused wasm Limit {self.count_at[kind]}"


def counted(what, kind, most, **others):
    """A module with the most of something, and one with one more."""
    for count in most, most + 1:
        made = Module(**{name: value(count) for name, value in others.items()})
        yield f"{what}: {count}", made, made.fine() if count == most else made.limit(kind)


def in_body(what, code, line, **others):
    made = Module(bodies=[body(code)], **others)
    return what, made, line or made.fine()


def cases():
    yield from counted("types", 1, 65_536, types=lambda n: [b"\x60\x01\x7f\x01\x7f"] * n)
    yield from counted("functions", 3, 65_536, functions=lambda n: [0] * n)
    yield from counted("globals", 6, 1_024, globals_=lambda n: [I32 + b"\0" + constant()] * n)
    yield from counted("exports", 7, 65_536, exports=lambda n: [sized(b"%d" % i) + b"\0\0" for i in range(n - 2)])
    yield from counted("element segments", 9, 65_536, tables=lambda n: [b"\x70\0\1"], elements=lambda n: [b"\0" + constant() + b"\0"] * n)
    yield from counted("data segments", 11, 65_536, segments=lambda n: [b"\0" + constant() + b"\0"] * n)
    for count in 64, 65:
        made = Module(types=[b"\x60\x01\x7f\x01\x7f", b"\x60" + vector([I64] * count) + b"\0"])
        yield f"parameters: {count}", made, made.fine() if count == 64 else f"refused wasm Limit {made.count_at[1] + 1 + 5 + 1}"
    for count in 65_536, 65_537:
        made = Module(tables=[b"\x70\0" + number(count)])
        yield f"elements of a table: {count}", made, made.fine() if count == 65_536 else f"refused wasm Limit {made.count_at[4] + 3}"
    for count in 512, 513:
        made = Module(memories=[b"\0" + number(count)])
        yield f"first pages: {count}", made, made.fine(512) if count == 512 else f"refused wasm Limit {made.count_at[5] + 2}"
    for count in 65_536, 65_537:
        made = Module(memories=[b"\1\1" + number(count)])
        yield f"pages at most: {count}", made, made.fine() if count == 65_536 else f"refused wasm Form {made.count_at[5] + 3}"
    for count in 4_096, 4_097:
        made = Module(bodies=[body(b"\x41\x00", [(4_000, I32), (count - 4_000, I64)])])
        # The size of the body, the number of groups, and the first group of three bytes stand in front.
        yield f"locals: {count}", made, made.fine() if count == 4_096 else f"refused wasm Limit {made.count_at[10] + 1 + 1 + 1 + 3}"
    for size in MOST_MODULE_BYTES, MOST_MODULE_BYTES + 1:
        made = Module(custom=size)
        yield f"bytes: {size}", made, made.fine() if size == MOST_MODULE_BYTES else "refused wasm Limit 0"
    for count in 1_024, 1_025:
        line = None if count == 1_024 else "refused check Height 0 1024"
        yield in_body(f"operands: {count}", b"\x41\0" * count + b"\x1a" * (count - 1), line)
    for count in 1_024, 1_025:
        line = None if count == 1_024 else "refused check Nesting 0 1024"
        yield in_body(f"open blocks: {count}", b"\x02\x40" * count + END * count + b"\x41\0", line)
    made = Module(entry=b"\x80\0")
    yield "an index spelled in two bytes", made, made.fine()
    made = Module(bodies=[body(b"\x43\0\0\x80\x3f\x1a\x41\0")])
    yield "a number of floating point", made, f"refused wasm Float {made.count_at[10] + 1 + 1 + 1}"
    yield in_body("an if that would be too deep", b"\x02\x40" * 1_024 + b"\x04\x40" + END * 1_025, "refused check Nesting 0 1024")
    yield in_body("a label too many", b"\x41\0\x0c\1", "refused check Label 0 1")
    yield in_body("a local too many", b"\x20\1", "refused check Local 0 0")
    yield in_body("a global too many", b"\x23\0", "refused check Global 0 0")
    yield in_body("a function too many", b"\x41\0\x10\1", "refused check Function 0 1")
    yield in_body("a type too many", b"\x41\0\x11\1\0", "refused check TypeIndex 0 1")
    yield in_body("no table", b"\x41\0\x11\0\0", "refused check NoTable 0 1")
    yield in_body("an alignment of 8 bytes for 4", b"\x41\0\x28\3\0", "refused check Align 0 1")
    yield in_body("a constant global is set", b"\x41\0\x24\0\x41\0", "refused check Immutable 0 1", globals_=[I32 + b"\0" + constant()])
    yield in_body("a variable global is set", b"\x41\0\x24\0\x41\0", None, globals_=[I32 + b"\1" + constant()])
    yield in_body("an if without else gives a result", b"\x41\0\x04\x7f\x41\0" + END, "refused check Underflow 0 3")
    yield in_body("labels of a table differ", b"\x02\x40\x41\0\x41\0\x0e\1\0\1" + END + b"\x41\0", "refused check TypeMismatch 0 3")
    yield "a global of i64 begins with an i32", Module(globals_=[I64 + b"\0" + constant()]), "refused check Init 0 0"
    yield "a segment at an i64", Module(segments=[b"\0" + constant(wide=True) + b"\0"]), "refused check Init 0 0"
    yield "a name twice", Module(exports=[sized(b"invoke") + b"\0\0"]), "refused check Export 0 0"
    yield "an export of no table", Module(exports=[sized(b"t") + b"\1\0"]), "refused check Export 0 0"
    yield "an element that is no function", Module(tables=[b"\x70\0\1"], elements=[b"\0" + constant() + b"\1\1"]), "refused check Function 0 0"
    yield "a function without a type", Module(functions=[0, 1]), "refused check TypeIndex 0 0"
    yield "an element segment without a table", Module(elements=[b"\0" + constant() + b"\0"]), "refused check NoTable 0 0"
    yield "invoke gives an i64", Module(types=[b"\x60\x01\x7f\x01\x7e"], bodies=[body(b"\x42\0")]), "refused check Entry 0 0"


def main(words):
    program = words[0] if words else os.path.join(TOP, "fvm")
    agreed = differing = 0
    for name, module, line in cases():
        done = subprocess.run([program, "check"], input=module.bytes, stdout=subprocess.PIPE, stderr=subprocess.PIPE)
        answer = (done.stdout + done.stderr).decode().rstrip("\n")
        status = 0 if line.startswith("ok") else 3
        if (answer, done.returncode) == (line, status):
            agreed += 1
        else:
            differing += 1
            print(f"{name}: {answer} with status {done.returncode}, and not {line}")
    print(f"{agreed} agreed, {differing} differed")
    return 1 if differing or not agreed else 0


if __name__ == "__main__":
    sys.exit(main(sys.argv[1:]))
