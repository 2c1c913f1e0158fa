#!/usr/bin/env python3
"""stack.py LIBRARY FUNCTION...: how many bytes of stack a call of each FUNCTION takes at most.

Adds up the frames along the deepest way through the calls of a static library: what is pushed, what is taken from the
stack pointer, and the return addresses. Ends with status 1 where that is no bound: where a function calls itself, calls by
a pointer, or moves the stack pointer in a way that is not known here.
"""

import re
import subprocess
import sys

# functions of the C library, which call none: the bytes that are allowed to each
LEAVES = {"memcpy": 256, "memmove": 256, "memset": 256}


def objdump(*words):
    run = subprocess.run(["objdump", *words], capture_output=True, text=True, check=True)
    return run.stdout.splitlines()


def give_up(why):
    sys.exit(f"stack.py: no bound: {why}")


def code_of(library):
    """Each function's instructions, with what the linker puts into each of them."""
    code, lines = {}, []
    for line in objdump("-dr", "--no-show-raw-insn", library):
        if start := re.match(r"[0-9a-f]+ <(.*)>:$", line):
            lines = code.setdefault(start[1], [])
        elif filled := re.match(r"\s+[0-9a-f]+: R_X86_64_\S+\s+(.*)$", line):
            lines[-1][1].append(filled[1])
        elif step := re.match(r"\s+[0-9a-f]+:\t(.*?)\s*(?:#.*)?$", line):
            lines.append((step[1], []))
    return code


def tables_of(library):
    """The functions into whose middle a table of jumps leads: it must be their own table."""
    owners, section = set(), ""
    for line in objdump("-r", library):
        if head := re.match(r"RELOCATION RECORDS FOR \[(.*)\]:$", line):
            section = head[1]
        elif (filled := re.match(r"[0-9a-f]+ R_\S+\s+\.text\.(.*?)[+-]0x", line)) and not section.startswith((".text.", ".eh_frame")):
            if section != f".rodata.{filled[1]}":
                give_up(f"{section} has the address of {filled[1]}")
            owners.add(filled[1])
    return owners


def callee(name, step, filled, code):
    """The function that an instruction calls or jumps to, if it leaves its own."""
    for symbol in filled:
        target = re.sub(r"[+-]0x[0-9a-f]+$", "", symbol).removeprefix(".text.")
        if target not in code and target not in LEAVES:
            if symbol.startswith(".text") or re.match(r"(call|jmp)", step):
                give_up(f"{name} reaches {symbol}, which is not in the library")
            continue  # data
        if not re.match(r"(call|j\w+)\s", step):
            give_up(f"{name} takes the address of {target}")
        if not symbol.endswith("-0x4"):
            give_up(f"{name} jumps into the middle of {target}")
        return target
    if re.match(r"call", step):
        give_up(f"{name} calls itself")
    return None


def frame_of(name, steps, tables):
    """The bytes that a function pushes, takes from the stack pointer and uses below it, all together."""
    size, below, probed = 0, 0, False
    for step, _ in steps:
        word, _, operands = step.partition(" ")
        operands = operands.strip()
        if re.match(r"(call|jmp)\s+\*", step):
            if word.startswith("call") or name not in tables:
                give_up(f"{name} has `{step}`")
        elif word == "push":
            size += 8
        elif taken := re.match(r"sub\s+\$(0x[0-9a-f]+),%r11$", step):
            # a frame of more than some pages is taken page by page, down to %r11
            size, probed = size + int(taken[1], 16), True
        elif taken := re.match(r"lea\s+-(0x[0-9a-f]+)\(%rsp\),%r11$", step):
            size, probed = size + int(taken[1], 16), True
        elif taken := re.match(r"sub\s+\$(0x[0-9a-f]+),%rsp$", step):
            if not (probed and int(taken[1], 16) == 0x1000):
                size += int(taken[1], 16)
            probed = False
        elif taken := re.match(r"add\s+\$(0x[0-9a-f]+),%rsp$", step):
            # a number of 64 bits with its highest set takes
            size += max(0, 2**64 - int(taken[1], 16)) if int(taken[1], 16) >= 2**63 else 0
        elif operands.endswith(",%rsp") and word not in ("cmp", "test"):
            give_up(f"{name} has `{step}`")
        elif used := re.search(r"-(0x[0-9a-f]+)\(%rsp", operands):
            # a function that calls nothing may leave the stack pointer where it is
            below = max(below, int(used[1], 16))
    return size + below


def main():
    library, functions = sys.argv[1], sys.argv[2:]
    code, tables = code_of(library), tables_of(library)
    frames = {name: frame_of(name, steps, tables) for name, steps in code.items()}
    calls = {name: {callee(name, *step, code) for step in steps} - {None} for name, steps in code.items()}
    known = {leaf: (8 + bytes, [leaf]) for leaf, bytes in LEAVES.items()}

    def deepest(name, above):
        if name in above:
            give_up(f"{name} calls itself by {' '.join(above)}")
        if name not in known:
            below = max((deepest(c, [*above, name]) for c in calls[name]), default=(0, []))
            known[name] = (8 + frames[name] + below[0], [name, *below[1]])
        return known[name]

    for function in functions:
        if function not in code:
            give_up(f"{library} has no {function}")
        size, way = deepest(function, [])
        print(f"{function}: at most {size} bytes, by {' > '.join(way)}")
    print(f"with {LEAVES['memcpy']} bytes allowed to a function of the C library ({', '.join(LEAVES)})")


main()
