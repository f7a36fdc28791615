#!/usr/bin/env python3
"""Breaks clauses of contracts that are longer than 100 columns, and tells how many are left.

    tools/break_clauses.py FILE.rt..

`rt fmt` keeps the breaks of a clause and gives all lines after the first one indent; run it afterwards. Only clauses that
stand in one line are broken: before operators, behind the arrow of a binder, and before arguments in parentheses, the
least deep ones first. No proof changes by it.
"""

import re
import sys
from pathlib import Path

WIDTH = 100
# Operators in the order in which they bind, the loosest first.
OPERATORS = {"→": 1, "×": 2, "↔": 3, "≡": 4, "≢": 4, "<": 5, "≤": 5, "==": 5, "||": 6, "&&": 7, "++": 8, "∷": 8}
OPERATOR = re.compile(r"(→|×|↔|≡|≢|≤|<|==|\|\||&&|\+\+|∷)(?= )")
CLAUSE = re.compile(r"^(\s*)((?:requires|ensures|invariant)(?: \w+)? \{ )(.*\})$")
BINDER = re.compile(r"\([^()]* : [^()]*(\([^()]*\)[^()]*)*\)$")


def cost(text, at, depth):
    """What a break at a blank costs; None where there may be none."""
    before, rest = text[:at], text[at + 1 :]
    operator = OPERATOR.match(rest)
    if operator:
        bound = operator.group(1) == "→" and BINDER.search(before.rstrip())
        return None if bound else 10 * depth + OPERATORS[operator.group(1)]
    if before.endswith(";"):
        return 10 * depth + 1
    if before.endswith(") →"):
        return 10 * depth + 0.5
    if re.search(r"λ [^.()]*\.$", before):
        return 10 * depth + 4.5
    if rest.startswith("(") and not re.search(r"([{=λ:]|→|×|↔|≡|≢|≤|<|\|\||&&|\+\+|∷)$", before):
        return 10 * depth + 9.5
    return None


def breaks(text):
    """The blanks at which a clause may be broken, each with its cost."""
    found, depth = [], 0
    for at, sign in enumerate(text):
        depth += (sign in "([{") - (sign in ")]}")
        if sign == " " and (price := cost(text, at, depth)) is not None:
            found.append((at, price))
    return found


def broken(head, body, indent):
    """The lines of a clause."""
    text, lines, begin, pad = head + body, [], 0, ""
    found = breaks(text)
    while len(pad) + len(text) - begin > WIDTH:
        least = len(head) if begin == 0 else begin
        behind = [(at, price) for at, price in found if at > least + 6]
        fitting = [(at, price) for at, price in behind if len(pad) + at - begin <= WIDTH]
        if not behind:
            break
        # A break that leaves a short line is dear; of equals the last one counts.
        at = min(fitting or behind, key=lambda it: (it[1] + 12 * (it[0] < least + 14), -it[0]))[0]
        lines.append(pad + text[begin:at].rstrip())
        begin, pad = at + 1, " " * (indent + 4)
    return lines + [pad + text[begin:]]


def fix(path):
    """Breaks the long clauses of a file; how many lines of clauses stay too long."""
    lines, left = [], 0
    for line in path.read_text().split("\n"):
        clause = CLAUSE.match(line) if len(line) > WIDTH else None
        made = broken(clause[1] + clause[2], clause[3], len(clause[1])) if clause else [line]
        left += sum(len(it) > WIDTH for it in made) if clause else 0
        lines += made
    path.write_text("\n".join(lines))
    return left


def main():
    left = sum(fix(Path(name)) for name in sys.argv[1:])
    print(f"{left} lines of clauses are longer than {WIDTH} columns")
    return 0


if __name__ == "__main__":
    sys.exit(main())
