#!/usr/bin/env python3
"""Lists the functions of compiled files in which a loop touches new stack pages behind a conditional jump, or a jump through a table.

The compiler's back end touches a large frame in steps of 3,072 bytes, so that no page is passed over: `sub $0xc00,%rsp`, then a store to where that points. A
few steps are written out, and overwrite nothing. More are a loop that ends at the address in a register, r11. Where that stands behind a branch, the register
may hold a value that is still wanted, and the function is compiled wrong. In the first instructions of a function it is harmless. A step counts as one of a
loop if the stack pointer is compared behind it, or r11 is written before it.

    probes.py FILE..    files that objdump reads: archives, objects, programs

Exit status: 0 if there is no such function, 1 if there is one, 2 if a file has no page that is touched at all, so that nothing was looked at.
"""
import re
import subprocess
import sys

FUNCTION = re.compile(r"^[0-9a-f]+ <(.+)>:$")
INSTRUCTION = re.compile(r"^ *([0-9a-f]+):\t(\S+) *(.*)$")
TARGET = re.compile(r"^([0-9a-f]+)\b")
STEP = [(("sub", "subq"), "$0xc00,%rsp"), (("movq",), "$0x0,(%rsp)")]


def functions(path):
    """Yields each function of a file: its name and its instructions, as (address, operation, operands)."""
    listing = subprocess.run(["objdump", "-d", "--no-show-raw-insn", path], check=True, capture_output=True, text=True).stdout
    name, body = None, []
    for line in listing.splitlines():
        if start := FUNCTION.match(line):
            yield name, body
            name, body = start[1], []
        elif found := INSTRUCTION.match(line):
            body.append((int(found[1], 16), found[2], found[3]))
    yield name, body


def is_like(instructions, forms):
    """Whether instructions have these forms, each some operations and the operands."""
    return len(instructions) == len(forms) and all(it[1] in operations and it[2] == operands for it, (operations, operands) in zip(instructions, forms))


def is_branch(operation, operands):
    """A conditional jump, or one through a table."""
    return operation.startswith("j") and (not operation.startswith("jmp") or operands.startswith("*"))


def goes_back_to(loops, operands):
    """Whether a jump goes back to the first instruction of a loop that touches pages."""
    target = TARGET.match(operands)
    return bool(target) and int(target[1], 16) in loops


def ends_a_turn(instructions):
    """Whether the instruction behind a step, if there is one, compares the stack pointer: the end of a loop's turn."""
    return any(operation.startswith("cmp") and "%rsp" in operands for _, operation, operands in instructions)


def writes_r11(instructions):
    """Whether the instruction before a step, if there is one, writes r11, where such a loop has its end."""
    return any(operands.endswith(",%r11") for _, _, operands in instructions)


def steps_taken(body):
    """How many steps touch a page, and whether a loop of them stands behind a branch that is not its own or that of another such loop."""
    steps, loops, branched, behind = 0, set(), False, False
    for at, (address, operation, operands) in enumerate(body):
        if is_like(body[at : at + 2], STEP):
            steps += 1
            turn = ends_a_turn(body[at + 2 : at + 3])
            if turn:
                loops.add(address)
            behind = behind or (branched and (turn or writes_r11(body[max(at - 1, 0) : at])))
        elif is_branch(operation, operands) and not goes_back_to(loops, operands):
            branched = True
    return steps, behind


def look(path):
    """Prints the functions at fault in a file; says whether any page is touched in it, and whether there was a fault."""
    touched = fault = False
    for name, body in functions(path):
        steps, behind = steps_taken(body)
        touched = touched or steps > 0
        if behind:
            print(f"{path}: {name}: a loop touches stack pages behind a conditional jump or a jump through a table")
            fault = True
    return touched, fault


def main(paths):
    looks = [(path, *look(path)) for path in paths]
    if any(fault for _, _, fault in looks):
        return 1
    empty = [path for path, touched, _ in looks if not touched]
    for path in empty:
        print(f"{path}: no stack page is touched: nothing was looked at")
    return 2 if empty or not paths else 0


if __name__ == "__main__":
    sys.exit(main(sys.argv[1:]))
