"""Compares what calls take of the stack with goosetable.h and with the bound of the library's code, or writes it to the header (--write).

Arguments: the library, and perhaps --write. Standard input: lines of a call and its bytes.
"""
import re
import sys
from pathlib import Path

from bound import bounds

HEADER = Path("include/goosetable.h")

# Calls that hash. The runs do not reach the way through their code that takes the most; the header states what the code can take.
NOT_REACHED = {
    "goosetable_fetch",
    "goosetable_own_envelope",
    "goosetable_inventory",
    "goosetable_tomb",
    "goosetable_route_tag",
    "goosetable_delivered",
    "goosetable_commitment",
}


def stated_in(text, call):
    """The line Stack in the comment right before a call's declaration."""
    return re.search(rf"(?<= \* Stack: )([\d,]+)(?= bytes\.\n \*/\n\w+ {call}\()", text)


def disagreement(text, call, taken, most):
    """What is wrong with one call's figures, if anything is."""
    if taken > most or (taken < most) != (call in NOT_REACHED):
        return f"{call} took {taken} bytes of stack, and its code can take {most}: the runs do not reach that, or the walk misses some"
    stated = stated_in(text, call)
    if not stated:
        return f"{HEADER}: no line 'Stack' before {call}"
    if int(stated[1].replace(",", "")) != most:
        return f"{HEADER}:{text.count(chr(10), 0, stated.start()) + 1}: {call} can take {most} bytes of stack, not {stated[1]}"
    return None


def main(library, write):
    text = HEADER.read_text(encoding="utf-8")
    measured = {call: int(taken) for call, taken in (line.split() for line in sys.stdin)}
    most = bounds(library)
    if set(most) != set(measured):
        sys.exit(f"{library} has other calls than are measured: {', '.join(sorted(set(most) ^ set(measured)))}")
    for call, taken in measured.items():
        stated = stated_in(text, call)
        if write and stated:
            text = f"{text[:stated.start()]}{most[call]:,}{text[stated.end():]}"
        print(f"{call:<30} {taken:>6,}")
    if write:
        HEADER.write_text(text, encoding="utf-8")
    wrong = [why for call, taken in measured.items() if (why := disagreement(text, call, taken, most[call]))]
    if wrong:
        sys.exit("\n".join(wrong))


main(sys.argv[1], sys.argv[2:] == ["--write"])
