#!/usr/bin/env python3
"""Tries the wrong bodies of crates, each of which the contracts must refuse.

    tools/try_edits.py [--gate | --further] [--alone] [--only-read] [--jobs N] [CRATE..]

A wrong body is a file crates/CRATE/must-fail/NAME.edit, which the gate tries, or crates/CRATE/mutants/NAME.mutant,
which it doesn't. Both have lines 'file: PATH', 'old: TEXT' and 'new: TEXT'; each old text is in its file exactly once.
Without names of crates all are tried, and it takes an hour.

A check says for each function by itself whether it is proved. So wrong bodies that turn different functions are tried
by one check, all at once: one of them is refused if a function that it turns has a goal of its own that stays open.
What is not refused so is tried alone by `rt must-fail`, or all with --alone. First the crate as it is must be proved.
All this is done on a copy of the tree, whose checks begin with what `rt check` kept of the same crates.

--gate and --further take those of the one or of the other kind. --only-read tries none, and says in a second which no
longer fit the text. The exit status is 1 where a wrong body is not refused or does not fit, or a file of these folders
is neither kind.
"""

import argparse
import os
import re
import shutil
import subprocess
import sys
import tempfile
from dataclasses import dataclass

FUNCTION = re.compile(r"^( *)(?:pub(?:\([^)]*\))? )?(?:const )?(?:unsafe )?fn (\w+)", re.M)
# The folder of each kind of wrong body in a crate, by what its files end in.
FOLDERS = {".edit": "must-fail", ".mutant": "mutants"}
OTHER_ITEM = re.compile(r"^(?:pub(?:\([^)]*\))? )?(?:const|static|struct|enum|impl|trait|type|mod|use)\b", re.M)
IMPL = re.compile(r"^impl\b(?:<.*?>)?\s+(?:(\w+)(?:<([^{]*)>)? for )?(?:&(?:mut )?)?(\w+)", re.M)
# What a check says of a function whose own goal stays open, and of a proof file that cites what is no longer there.
OPEN = re.compile(r"did not prove|expected (?:answers|invariants|a proof|proof)")
CITED = re.compile(r"has no field|is not in scope|has no `|was not admitted")


class Unfit(Exception):
    """A wrong body that can't be put into the text."""


@dataclass
class WrongBody:
    crate: str
    path: str
    pairs: list

    @property
    def name(self):
        return os.path.splitext(os.path.basename(self.path))[0]


@dataclass
class Round:
    """Wrong bodies that are tried together, the functions that each turns, and the files with all of them."""

    functions: dict
    texts: dict


def read(path):
    with open(path, encoding="utf-8") as file:
        return file.read()


def write(path, text):
    with open(path, "w", encoding="utf-8") as file:
        file.write(text)


def parsed(crate, path):
    """The wrong body in a file: its files with old and new texts."""
    file, old, pairs = None, None, []
    for line in read(path).split("\n"):
        if line.startswith("file: "):
            file = line[6:].strip()
        elif line.startswith("old: "):
            old = line[5:]
        elif line.startswith("new:"):
            pairs.append((file, old, line[4:].removeprefix(" ")))
    return WrongBody(crate, path, pairs)


def files_of(crate, kind):
    """The files of a crate's folder of this kind of wrong bodies."""
    folder = f"crates/{crate}/{FOLDERS[kind]}"
    return [f"{folder}/{it}" for it in sorted(os.listdir(folder))] if os.path.isdir(folder) else []


def bodies_of(crate, kinds):
    """The wrong bodies of a crate whose files have one of these endings."""
    return [parsed(crate, path) for kind in kinds for path in files_of(crate, kind) if path.endswith(kind)]


def misplaced(crate):
    """The files of the folders of a crate's wrong bodies that are none, or are of the other kind."""
    return [path for kind in FOLDERS for path in files_of(crate, kind) if not path.endswith(kind)]


def applied(body, texts):
    """The files that a wrong body changes, over texts that others have changed before."""
    if not body.pairs:
        raise Unfit("it has no lines 'old:' and 'new:'")
    made = {}
    for file, old, new in body.pairs:
        path = f"crates/{body.crate}/{file}"
        if path not in made and path not in texts and not os.path.isfile(path):
            raise Unfit(f"there is no file {file}")
        text = made.get(path) or texts.get(path) or read(path)
        if not old or text.count(old) != 1:
            raise Unfit(f"its old text is {text.count(old) if old else 0} times in {file}: {old}")
        made[path] = text.replace(old, new)
    return made


def segment_of(impl):
    """What the check calls an impl: its type, and after it the trait and the trait's arguments."""
    trait, arguments, of = impl.groups()
    return of + (trait or "") + "".join(re.findall(r"\b[A-Z]\w*", arguments or ""))


def function_at(crate, file, text, end):
    """The function in which a place of a file lies, as the module, the impl and the name; None where that isn't one."""
    heads = [it for it in FUNCTION.finditer(text) if it.start() < end]
    if not heads or OTHER_ITEM.search(text, heads[-1].end(), end):
        return None
    head = heads[-1]
    impls = [it for it in IMPL.finditer(text, 0, head.start())] if head[1] else []
    module = file.removeprefix("src/").removesuffix(".rt").replace("/", "::")
    parts = [crate] if module in ("lib", "main") else [crate, module]
    return "::".join(parts), segment_of(impls[-1]) if impls else "", head[2]


def turned(body):
    """The functions that a wrong body turns; empty where that can't be told."""
    found = set()
    for file, old, _ in body.pairs:
        text = read(f"crates/{body.crate}/{file}")
        at = text.find(old)
        function = file.startswith("src/") and at >= 0 and function_at(body.crate, file, text, at + len(old))
        if not function:
            return set()
        found.add(function)
    return found


def rounds_of(bodies):
    """Rounds of bodies that turn different functions, and the bodies that must be tried alone."""
    rounds, alone = [], []
    for body in bodies:
        functions = turned(body)
        if functions:
            put_in_round(rounds, body, functions)
        else:
            alone.append(body)
    single = [it for it in rounds if len(it.functions) == 1]
    alone += [body for it in single for body, _ in it.functions.values()]
    return [it for it in rounds if it not in single], alone


def put_in_round(rounds, body, functions):
    for one in rounds:
        if any(functions & others for _, others in one.functions.values()):
            continue
        try:
            one.texts.update(applied(body, one.texts))
        except Unfit:
            continue
        one.functions[body.path] = (body, functions)
        return
    rounds.append(Round({body.path: (body, functions)}, applied(body, {})))


def check(crate, jobs):
    """What a check of the crate says, by lines, and whether the crate is proved."""
    words = ["rt", "check", *(["--jobs", jobs] if jobs else [])]
    ran = subprocess.run(words, cwd=f"crates/{crate}", stdout=subprocess.PIPE, stderr=subprocess.STDOUT, text=True,
                         errors="replace", stdin=subprocess.DEVNULL)
    return ran.stdout.split("\n"), ran.returncode == 0


def line_of(function, said):
    """The line in which a check says whether a function is proved."""
    module, impl, name = function
    lines = [it for it in said if re.match(rf"fn {re.escape(module)}::(?:\w+::)?{name}: ", it)]
    if len(lines) > 1:
        lines = [it for it in lines if f"::{impl}::{name}: " in it]
    return lines[0] if len(lines) == 1 else None


def is_refused(function, said):
    """Whether a check leaves a goal of the function open, or an answer that is written for one no longer proves it."""
    line = line_of(function, said)
    if line is None:
        return False
    if OPEN.search(line):
        return True
    folder = "proofs/" + "/".join(line[3:].split(": ")[0].split("::")[1:]) + "/"
    errors = [it for it in said if folder in it and ": error" in it and not CITED.search(it)]
    return ": not proved" in line and bool(errors)


def try_together(crate, one, jobs):
    """The bodies of a round that the check refuses by goals of their own functions."""
    before = {path: read(path) for path in one.texts}
    for path, text in one.texts.items():
        write(path, text)
    said, _ = check(crate, jobs)
    for path, text in before.items():
        write(path, text)
    if not any(it.startswith("logic=not-proved") for it in said):
        return []
    return [body for body, functions in one.functions.values() if any(is_refused(it, said) for it in functions)]


def try_alone(crate, bodies):
    """Tries bodies one by one: what `rt must-fail` says of each, by its name."""
    folder = f"crates/{crate}/must-fail"
    shutil.rmtree(folder, ignore_errors=True)
    os.mkdir(folder)
    for body in bodies:
        lines = "".join(f"file: {file}\nold: {old}\nnew: {new}\n" for file, old, new in body.pairs)
        write(f"{folder}/{body.name}.edit", lines)
    ran = subprocess.run(["rt", "must-fail", crate], stdout=subprocess.PIPE, stderr=subprocess.STDOUT, text=True,
                         errors="replace", stdin=subprocess.DEVNULL)
    told = re.findall(rf"^(?:rt: )?must-fail {crate}/([\w.-]+)\.edit: (.*)$", ran.stdout, re.M)
    return dict(told)


def try_crate(crate, bodies, given):
    """Tries the bodies of a crate, and answers those that are not refused."""
    said, is_proved = check(crate, given.jobs)
    if not is_proved:
        print(f"{crate}: not proved as it is, so nothing is tried", *said[-4:], sep="\n   ", flush=True)
        return bodies
    rounds, left = ([], bodies) if given.alone else rounds_of(bodies)
    for one in rounds:
        refused = try_together(crate, one, given.jobs)
        print(f"{crate}: {len(one.functions)} wrong bodies in one check, {len(refused)} refused", flush=True)
        left = left + [body for body, _ in one.functions.values() if body not in refused]
    told = try_alone(crate, left) if left else {}
    missed = []
    for body in left:
        answer = told.get(body.name, "NOT TRIED: nothing was said of it")
        print(f"   {crate}/{body.name}: {answer[:240]}", flush=True)
        if not answer.startswith("refused"):
            missed.append(body)
    return missed


def fitting(bodies):
    """The bodies that fit the text; the others are told."""
    fit = []
    for body in bodies:
        try:
            applied(body, {})
            fit.append(body)
        except Unfit as why:
            print(f"{body.crate}/{body.name} does not fit: {why}")
    return fit


def with_below(names, uses):
    """The crates of these names and all below them."""
    found = []
    for name in names:
        found += [it for it in [*with_below(uses.get(name, []), uses), name] if it in uses and it not in found]
    return found


def enter_copy(room, crates):
    """Copies the tree, committed or not, with what checks of these crates kept, and goes there."""
    listed = subprocess.run(["git", "ls-files", "-z", "--cached", "--others", "--exclude-standard"],
                            stdout=subprocess.PIPE, text=True, check=True)
    for path in filter(os.path.isfile, listed.stdout.split("\0")):
        os.makedirs(os.path.dirname(f"{room}/{path}"), exist_ok=True)
        shutil.copy2(path, f"{room}/{path}")
    uses = {line.split(":")[0].split()[0]: line.split(":")[1].split()
            for line in read("crates.txt").splitlines() if ":" in line and not line.startswith("#")}
    for crate in with_below(crates, uses):
        if os.path.isdir(f"crates/{crate}/out"):
            shutil.copytree(f"crates/{crate}/out", f"{room}/crates/{crate}/out", symlinks=True)
    os.chdir(room)


def words():
    parser = argparse.ArgumentParser(description=__doc__, formatter_class=argparse.RawDescriptionHelpFormatter)
    for word in ("--gate", "--further", "--alone", "--only-read"):
        parser.add_argument(word, action="store_true")
    parser.add_argument("--jobs", default="")
    parser.add_argument("crates", nargs="*")
    return parser.parse_args()


def main():
    given = words()
    os.chdir(f"{os.path.dirname(os.path.abspath(__file__))}/..")
    kinds = [".edit"] if given.gate else [".mutant"] if given.further else list(FOLDERS)
    crates = re.findall(r"^(\w+)\b[^:\n]*:", read("crates.txt"), re.M)
    unknown = sorted(set(given.crates) - set(crates))
    if unknown:
        sys.exit(f"crates.txt has no crate {unknown[0]}")
    bodies = {it: bodies_of(it, kinds) for it in crates if not given.crates or it in given.crates}
    count = sum(map(len, bodies.values()))
    fit = {crate: fitting(its) for crate, its in bodies.items()}
    strange = [path for crate in bodies for path in misplaced(crate)]
    for path in strange:
        print(f"{path} is no wrong body that anything tries: it is to be must-fail/NAME.edit or mutants/NAME.mutant")
    count, missed = count + len(strange), len(strange)
    if given.only_read:
        missed = count - sum(map(len, fit.values()))
        print(f"{count - missed} wrong bodies fit the text, {missed} don't")
        return 1 if missed else 0
    with tempfile.TemporaryDirectory(prefix="edits-") as room:
        enter_copy(room, [crate for crate, its in fit.items() if its])
        for crate, its in fit.items():
            missed += len(bodies[crate]) - len(its) + len(try_crate(crate, its, given) if its else [])
    print(f"{count - missed} wrong bodies refused, {missed} not")
    return 1 if missed else 0


if __name__ == "__main__":
    sys.exit(main())
