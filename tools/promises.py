#!/usr/bin/env python3
"""Writes the tables of calls and clauses, docs/CALLS.md, from the contracts.

    tools/promises.py            writes them
    tools/promises.py --check    writes nothing; where the page is stale it prints a diff, and the exit status is 1

The page has a table for each crate of the product, and one of the words that clauses use. A crate's table has each call that its lib.rt exports: functions, the methods of exported types and of
exported traits. It has a row for each clause of a call. What a row says is taken from the source: the first sentence of
the call's comment, and the clause, or the definitions in it where it is longer than LONGEST.

docs/PROMISES.md is written by hand. Its rows have the form `| promise | call | clause |`, below a line with the names of
crates in bold. Where such a row, or one of README's table of promises, names a call or a clause that isn't there, it is
told, and the exit status is 1.
"""

import argparse
import difflib
import os
import re
import sys
from dataclasses import dataclass, field

HEAD = """# All calls

Written by `tools/promises.py` from the contracts: each public call of each crate, with its clauses. A row without a clause \
begins a call; 'its clause' is one without a name. Of a clause with more than {longest} characters only the definitions are \
named that it speaks of. What the calls promise, in plain words, is in [PROMISES.md](PROMISES.md).
"""
PAGE = "docs/CALLS.md"
PROMISES = "docs/PROMISES.md"
README = "README.md"
DEFINITIONS = "docs/DEFINITIONS.md"
LONGEST = 110
# Crates of tests and of tools for tests: nothing of the product calls them.
TESTS = re.compile(r"_tests$|^link_samples$|^growths$")


@dataclass
class Clause:
    kind: str
    name: str
    text: str


@dataclass
class Call:
    name: str
    path: str
    doc: str
    clauses: list
    of_trait: bool = False


@dataclass
class Module:
    path: str
    functions: dict = field(default_factory=dict)
    methods: dict = field(default_factory=dict)
    traits: dict = field(default_factory=dict)
    views: dict = field(default_factory=dict)
    impls: list = field(default_factory=list)
    imports: dict = field(default_factory=dict)


def read(path):
    with open(path, encoding="utf-8") as file:
        return file.read()


def matching(text, at):
    """The place after the brace that closes the one at a place."""
    depth = 0
    while at < len(text):
        depth += {"{": 1, "}": -1}.get(text[at], 0)
        at += 1
        if depth == 0:
            return at
    raise ValueError("a brace isn't closed")


def contract(text, at):
    """The clauses of the function whose name ends at a place, and the place after them."""
    clauses, depth = [], 0
    word = re.compile(r"(ensures|requires)\b\s*(\w+)?\s*\{")
    while at < len(text):
        if text.startswith("//", at):
            at = text.index("\n", at)
        found = word.match(text, at) if depth == 0 and not text[at - 1].isalnum() else None
        if found:
            end = matching(text, found.end() - 1)
            said = " ".join(text[found.end():end - 1].split())
            clauses.append(Clause(found[1], found[2] or "", said))
            at = end
            continue
        if depth == 0 and text[at] in "{;":
            return clauses, at
        depth += {"(": 1, "[": 1, ")": -1, "]": -1}.get(text[at], 0)
        at += 1
    raise ValueError("a function has no end")


def doc_before(text, at):
    """The first sentence of the comment above the line at a place."""
    lines = text[:at].split("\n")[:-1]
    while lines and re.match(r"\s*(#\[|\)\])", lines[-1]):
        lines.pop()
    said = []
    while lines and lines[-1].strip().startswith("///"):
        said.append(lines.pop().strip()[3:].strip())
    whole = " ".join(reversed(said)).split("  ")[0]
    return re.split(r"(?<=\.)\s", whole)[0].rstrip(".")


def calls_in(text, start, end, head):
    """The functions of a part of a file whose heads a pattern finds."""
    calls, at = [], start
    while found := head.search(text, at, end):
        clauses, at = contract(text, found.end())
        calls.append((found[1], doc_before(text, found.start()), clauses))
        if text[at] == "{":
            at = matching(text, at)
    return calls


def blocks(text, word):
    """The heads and bodies of the items of a file that begin with a word."""
    for found in re.finditer(rf"^(?:pub )?{word}\b[^{{;]*\{{", text, re.M):
        yield found[0], found.end(), matching(text, found.end() - 1)


def without_generics(head):
    while "<" in head:
        shorter = re.sub(r"<[^<>]*>", "", head.replace("->", ""))
        if shorter == head:
            break
        head = shorter
    return head


def imports_of(text):
    """From which definitions a file takes its names: the file's path, and the name there, none for a whole file."""
    found = {}
    for path, names in re.findall(r"ghost use Rattle\.([\w.]+?)\.\{([^}]*)\};", text):
        for name in names.split(","):
            there, _, here = name.strip().partition(" as ")
            found[here or there] = (path, there)
    for path, here in re.findall(r"ghost use Rattle\.([\w.]+) as (\w+);", text):
        found[here] = (path, None)
    return found


def module_of(path):
    text = re.sub(r"^#\[cfg\(test\)\]\n\w[^\n]*$", "", read(path), flags=re.M)
    module = Module(path, imports=imports_of(text))
    free = re.compile(r"^pub (?:const )?fn (\w+)", re.M)
    for name, doc, clauses in calls_in(text, 0, len(text), free):
        module.functions[name] = Call(name, path, doc, clauses)
    for head, start, end in blocks(text, "impl"):
        words = without_generics(head).rstrip("{ ").split()
        of = words[-1].lstrip("&") if "where" not in words else words[words.index("where") - 1]
        if "for" in words:
            of = words[words.index("for") + 1]
            module.impls.append((words[1], of))
            value = re.search(r"ghost Value = \{(.*?)\};", text[start:end])
            if words[1] == "Model" and value:
                module.views[of] = value[1].strip()
            if copy := re.search(r"ghost is_clone = \{(.*?)\};", text[start:end]):
                clone = Call(f"{of}::clone", path, "The same value", [Clause("ensures", "", copy[1].strip())])
                module.methods.setdefault(of, []).append(clone)
            continue
        method = re.compile(r"^    pub (?:const )?fn (\w+)", re.M)
        for name, doc, clauses in calls_in(text, start, end, method):
            module.methods.setdefault(of, []).append(Call(f"{of}::{name}", path, doc, clauses))
    for head, start, end in blocks(text, "trait"):
        of = re.search(r"trait (\w+)", head)[1]
        for name, doc, clauses in calls_in(text, start, end, re.compile(r"^    fn (\w+)", re.M)):
            module.traits.setdefault(of, []).append(Call(f"{of}::{name}", path, doc, clauses, True))
    return module


def crates():
    """The crates of the product, those below first."""
    names = [it.split(":")[0] for it in read("crates.txt").split("\n") if it and not it.startswith("#")]
    return [it for it in names if not TESTS.search(it) and os.path.isfile(f"crates/{it}/src/lib.rt")]


@dataclass
class Crate:
    name: str
    calls: list
    handed_on: dict
    views: dict
    impls: list
    imports: dict


def crate_of(name):
    """What a crate exports."""
    folder = f"crates/{name}/src"
    paths = [f"{at}/{it}" for at, _, files in sorted(os.walk(folder)) for it in sorted(files) if it.endswith(".rt")]
    modules = {it: module_of(it) for it in paths}
    lib = read(f"{folder}/lib.rt")
    crate = Crate(name, list(modules[f"{folder}/lib.rt"].functions.values()), {}, {}, [], {})
    exports = re.findall(r"^pub use ([\w:]+)::(\{[^{}]*\}|[\w ]+);", lib, re.M)
    if len(exports) != len(re.findall(r"^pub use ", lib, re.M)):
        raise ValueError(f"{folder}/lib.rt exports in a form that isn't known here")
    for origin, names in exports:
        words = [it.strip() for it in names.strip("{}").split(",") if it.strip()]
        path = f"{folder}/{origin.replace('::', '/')}"
        if f"{path}.rt" not in modules:
            crate.handed_on.setdefault(origin, []).extend(words)
            continue
        for word in words:
            add_export(crate, modules, path, *(word.split(" as ") * 2)[:2])
    crate.imports = {path: it.imports for path, it in modules.items()}
    return crate


def add_export(crate, modules, origin, name, shown):
    """Adds what a crate exports of a module or of one inside it: a function, or the methods of a type or of a trait."""
    inside = [it for path, it in modules.items() if path == f"{origin}.rt" or path.startswith(f"{origin}/")]
    functions = [it.functions[name] for it in inside if name in it.functions]
    if functions:
        crate.calls.append(Call(shown, functions[0].path, functions[0].doc, functions[0].clauses))
    elif name[0].islower():
        raise ValueError(f"{origin}.rt has no public function {name}")
    for module in inside:
        crate.calls += module.traits.get(name, [])
    for other in modules.values():
        crate.calls += other.methods.get(name, [])
        if name in other.views:
            crate.views[name] = other.views[name]
        crate.impls += [it for it in other.impls if it[1] == name]


def words_of(call, clause, imports):
    """The words of a clause that definitions of this project give, each with the file that has it."""
    found = {}
    for at in re.finditer(r"(?<![\w.'])[A-Za-z_]\w*(?:\.[A-Za-z_]\w*)?", clause.text):
        here, _, part = at[0].partition(".")
        path, there = imports[call.path].get(here, ("", None))
        if ".specs." in path and ".declared." not in path and not path.startswith("std."):
            found[there or part] = path
    return found


def spec_path(path):
    crate, _, rest = path.partition(".specs.")
    return f"crates/{crate}/specs/{rest.replace('.', '/')}.antt"


def link_of(path, sections):
    """A link to what docs/DEFINITIONS.md says of a file of definitions, or else to the file."""
    file = spec_path(path)
    to = f"DEFINITIONS.md#{sections[file].lower()}" if file in sections else f"../{file}"
    return f"[{path.rpartition('.')[2]}]({to})"


def code(text):
    return f"`{text}`".replace("|", "\\|")


def said_of(call, clause, crate):
    """What a row says of a clause: its text, or the definitions of which a long one speaks."""
    if len(clause.text) <= LONGEST:
        return code(clause.text)
    words = words_of(call, clause, crate.imports)
    return "by " + ", ".join(code(it) for it in words) if words else "a long clause"


def cell_of(clause):
    if clause.kind == "requires":
        return f"requires {code(clause.name)}" if clause.name else "requires"
    return code(clause.name) if clause.name else "its clause"


def rows_of(call, crate):
    """The rows of a call."""
    first = f"| {code(call.name)} "
    if len(call.clauses) == 1 and call.clauses[0].kind == "ensures":
        only = call.clauses[0]
        return [f"{first}| {cell_of(only)} | {call.doc}: {said_of(call, only, crate)} |"]
    rows = [f"{first}| {'' if call.clauses else 'none '}| {call.doc} |"]
    for clause in call.clauses:
        rows.append(f"| | {cell_of(clause)} | {said_of(call, clause, crate)} |")
    return rows


def table_of(crate, sections, traits):
    """The table of a crate, with what stands above it."""
    lines = [f"## Calls of {crate.name}", ""]
    said = [f"{code(it)} is seen as {code(view)}" for it, view in sorted(crate.views.items())]
    said += [f"{code(of)} is a {code(trait)}" for trait, of in sorted(crate.impls) if trait in traits]
    for origin, names in sorted(crate.handed_on.items()):
        calls = [it for it in names if it[0].islower()]
        said += [f"{', '.join(code(it) for it in calls)} of {origin} can be called from here too"] if calls else []
    if said:
        lines += ["; ".join(said) + ".", ""]
    clauses = [(call, it) for call in crate.calls for it in call.clauses]
    paths = sorted({path for call, it in clauses for path in words_of(call, it, crate.imports).values()})
    if paths:
        lines += ["Definitions: " + ", ".join(link_of(it, sections) for it in paths) + ".", ""]
    lines += ["| call | clause | what it says |", "|---|---|---|"]
    for call in crate.calls:
        lines += rows_of(call, crate)
    return lines + [""]


def sections_of(page):
    """The section of the page of definitions that speaks of a file, for each file that one speaks of."""
    found = {}
    for name, said in re.findall(r"^### (\w+)\n(.*?)(?=^##|\Z)", page, re.M | re.S):
        for path in re.findall(r"`(\w+/specs/[\w/]+\.antt)`", said):
            found.setdefault(f"crates/{path}", name)
    return found


def generated(all_crates, definitions):
    """The page."""
    sections = sections_of(definitions)
    traits = {it.name.partition("::")[0] for crate in all_crates for it in crate.calls if it.of_trait}
    lines = [HEAD.format(longest=LONGEST)]
    for crate in all_crates:
        if crate.calls:
            lines += table_of(crate, sections, traits)
    lines += table_of_words(all_crates, sections)
    return "\n".join(lines)


def names_in(cell):
    return re.findall(r"`([^`]+)`", re.sub(r"\[[^\]]*\]\([^)]*\)", "", cell))


def is_call(name, calls):
    return any(name in (it.name, it.name.rpartition("::")[2], it.name.partition("::")[0]) for it in calls)


def unknown_names(page, all_crates):
    """Where a row by hand names a call or a clause that isn't there."""
    missed, calls = [], []
    by_name = {it.name: it.calls for it in all_crates}
    everything = [call for it in all_crates for call in it.calls]
    for number, line in enumerate(page.split("\n"), 1):
        if heads := [it for it in re.findall(r"\*\*(\w+)\*\*", line) if it in by_name]:
            calls = [call for it in heads for call in by_name[it]]
        cells = [it.strip() for it in line.strip("|").split("|")]
        if not calls or not line.startswith("|") or len(cells) != 3:
            continue
        named = names_in(cells[1])
        clauses = {clause.name for it in calls if any(is_call(name, [it]) for name in named) for clause in it.clauses}
        missed += [f"{PROMISES}:{number}: there is no call {it}" for it in named if not is_call(it, calls)]
        missed += [f"{PROMISES}:{number}: these calls have no clause {it}" for it in names_in(cells[2])
                   if it not in clauses and not is_call(it, everything)]
    return missed


def unknown_in_readme(page, all_crates):
    """What README's table of promises names that is neither a call nor a clause."""
    names = {it.name for it in all_crates}
    calls = [call for it in all_crates for call in it.calls]
    clauses = {clause.name for it in calls for clause in it.clauses}
    table = re.search(r"^\| promise \|.*\n((?:\|.*\n)*)", page, re.M)
    rows = [line.strip("|").split("|") for line in table[1].split("\n") if line] if table else []
    missed = []
    for name in [name for row in rows for name in names_in(row[1])]:
        crate, _, rest = name.partition("::")
        if name not in clauses and not is_call(rest if rest and crate in names else name, calls):
            missed.append(f"{README}: there is no call or clause {name}")
    return missed


def meaning_of(path, word):
    """What the comment above a definition says, None where the file has no such definition."""
    lines = read(spec_path(path)).split("\n")
    at = next((n for n, it in enumerate(lines) if re.match(rf"[\w ]*\bpub(?: record| data)? {word}\b", it)), None)
    if at is None:
        return None
    said = []
    while at > 0 and lines[at - 1].startswith("-- "):
        at -= 1
        said.append(lines[at][3:])
    return " ".join(reversed(said))


def table_of_words(all_crates, sections):
    """The words of clauses whose files the page of definitions has no section for."""
    found = {(word, path) for crate in all_crates for call in crate.calls for clause in call.clauses
             for word, path in words_of(call, clause, crate.imports).items()
             if spec_path(path) not in sections}
    lines = ["## Words of clauses", "", "Those whose file has no section in [DEFINITIONS.md](DEFINITIONS.md). Words "
             "that end in `_view` or `_views` are left out: they give a value of the code, or a list of them, as one of "
             "the definitions.", "", "| word | its file | what it says |", "|---|---|---|"]
    for word, path in sorted(found, key=lambda it: (spec_path(it[1]), it[0])):
        if re.search(r"_views?$", word):
            continue
        crate, _, file = path.replace(".", "/").partition("/specs/")
        said = (meaning_of(path, word) or "").replace("|", "\\|")
        lines.append(f"| {code(word)} | [{crate}/{file}](../{spec_path(path)}) | {said} |")
    return lines + [""]


def main():
    parser = argparse.ArgumentParser(description=__doc__, formatter_class=argparse.RawDescriptionHelpFormatter)
    parser.add_argument("--check", action="store_true")
    given = parser.parse_args()
    os.chdir(f"{os.path.dirname(os.path.abspath(__file__))}/..")
    all_crates = [crate_of(it) for it in crates()]
    made = generated(all_crates, read(DEFINITIONS))
    told = unknown_names(read(PROMISES), all_crates) + unknown_in_readme(read(README), all_crates)
    if given.check:
        page = read(PAGE) if os.path.exists(PAGE) else ""
        told += difflib.unified_diff(page.split("\n"), made.split("\n"), PAGE, "as the contracts are", lineterm="", n=1)
    else:
        with open(PAGE, "w", encoding="utf-8") as file:
            file.write(made)
    for line in told:
        print(line)
    sys.exit(1 if told else 0)


if __name__ == "__main__":
    main()
