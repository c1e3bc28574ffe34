"""The most stack that a call can take, whatever its input: read off the machine code of the library.

A function's instructions are walked from its entry on every path, with the depth of the stack pointer below the caller's frame, the return
address included; a call adds what the called function takes. Functions of the C library count with their return address alone. Whatever such a
walk cannot follow (a call or jump through a register, recursion, an unknown change of the stack pointer) ends it with a message.
"""
import re
import subprocess
import sys
from collections import namedtuple

WORD = 8
C_LIBRARY = {"memcpy", "memmove", "memset"}
NOT_FOLLOWED = {"leave", "enter", "notrack", "bnd"}

# Where an instruction stands, what it is, and the symbol of its relocation, if it has one.
Instruction = namedtuple("Instruction", "at op args symbol")


def functions(archive):
    """The instructions of every function."""
    text = subprocess.run(["objdump", "-dr", "--no-show-raw-insn", archive], capture_output=True, text=True, check=True).stdout
    found, here = {}, None
    for line in text.splitlines():
        if m := re.match(r"[0-9a-f]+ <(.+)>:$", line):
            here = found.setdefault(m[1], [])
        elif m := re.match(r"\s+[0-9a-f]+: R_\S+\s+(\S+)", line):
            here[-1] = here[-1]._replace(symbol=re.sub(r"[-+]0x[0-9a-f]+$", "", m[1]).removeprefix(".text."))
        elif m := re.match(r"\s+([0-9a-f]+):\s+(\S+)\s*([^#]*)", line):
            here.append(Instruction(int(m[1], 16), m[2], m[3].strip(), None))
    return found


def stop(function, instruction, why):
    sys.exit(f"{function}+{instruction.at:#x}: '{instruction.op} {instruction.args}' {why}, so that there is no bound")


def signed(hexadecimal):
    value = int(hexadecimal, 16)
    return value - 2**64 if value >= 2**63 else value


def moved(function, i):
    """By how much an instruction lowers the stack pointer."""
    if i.op in NOT_FOLLOWED:
        stop(function, i, "is not followed here")
    if i.op in ("push", "pushq"):
        return WORD
    if i.op in ("pop", "popq"):
        return -WORD
    if not i.args.endswith(",%rsp") or i.op.startswith(("cmp", "test")):
        return 0
    by = re.fullmatch(r"\$(0x[0-9a-f]+),%rsp", i.args)
    if by and i.op.startswith(("sub", "add")):
        return signed(by[1]) if i.op.startswith("sub") else -signed(by[1])
    return stop(function, i, "sets the stack pointer in another way")


def below(i):
    """How far below the stack pointer an instruction writes or reads: the red zone of a function that calls none."""
    return max((int(n, 16) for n in re.findall(r"-(0x[0-9a-f]+)\(%rsp", i.args)), default=0)


def goes_to(function, i):
    """The function and place that a call or jump goes to."""
    if i.symbol:
        return i.symbol, None
    m = re.match(r"([0-9a-f]+) <([^+>]+)", i.args)
    if not m:
        stop(function, i, "goes to a place that is not known")
    return m[2], int(m[1], 16)


def inside(function, i):
    """Where in its own function a jump goes to, if it does."""
    target, at = goes_to(function, i)
    return at if target == function else None


def follows(function, i, k, place):
    """The instructions that may come after number k."""
    if i.op.startswith(("ret", "ud2")) or (i.op.startswith("rep") and i.args.startswith("ret")):
        return []
    if not i.op.startswith("j"):
        return [k + 1]
    at = inside(function, i)
    jumped = [] if at is None else [place[at]]
    return jumped if i.op.startswith("jmp") else [*jumped, k + 1]


def leaves(function, i, depth):
    """The function that an instruction calls, or jumps to at its end, with the depth at that."""
    if i.op.startswith("call"):
        return [(depth, goes_to(function, i)[0])]
    if i.op.startswith("j") and inside(function, i) is None:
        return [(depth - WORD, goes_to(function, i)[0])]
    return []


def walk(name, code):
    """The depth of a function's own frame, and the functions that it calls, each with the depth at its call."""
    place = {i.at: k for k, i in enumerate(code)}
    depths, ahead, deepest, calls = {}, [(0, WORD)], WORD, []
    while ahead:
        k, depth = ahead.pop()
        if depths.setdefault(k, depth) != depth:
            stop(name, code[k], "is reached with two depths of the stack")
        i, after = code[k], depth + moved(name, code[k])
        deepest = max(deepest, after, depth + below(i))
        calls += leaves(name, i, depth)
        ahead += [(f, after) for f in follows(name, i, k, place) if depths.get(f) != after]
    return deepest, calls


def bound(name, code, known, path=()):
    """What a function takes with all that it calls."""
    if name in path:
        sys.exit(f"{name} calls itself by {' > '.join(path)}, so that there is no bound")
    if name not in code and name not in C_LIBRARY:
        sys.exit(f"{path[-1]} calls {name}, which is not in the library, so that there is no bound")
    if name not in known:
        deepest, calls = walk(name, code[name]) if name in code else (WORD, [])
        known[name] = max([deepest, *(depth + bound(called, code, known, (*path, name)) for depth, called in calls)])
    return known[name]


def bounds(archive):
    """The bound of each exported function."""
    code, known = functions(archive), {}
    return {name: bound(name, code, known) for name in code if name.startswith("goosetable_")}
