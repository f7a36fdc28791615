#!/usr/bin/env python3
"""Measures the proved linker beside others, on inputs that it makes by itself.

    python3 bench/run.py [--runs N] [--scale F] [--peers-only] [INPUT..]

The inputs, each of them also doubled:

    objects      2,000 objects, each with 10 functions that call those of other objects, and a table of them
    relocations  one object with 200,000 relocations, of types 64, PC32 and PLT32
    data         one object with 100 MB of .data
    archives     20 archives of 500 members in 4 groups, of which each member calls one of another archive
    groups       2,000 objects with 50 COMDAT groups each, of which 9 of 10 are dropped
    names        one million symbols in 500 objects, half of them weak, each of these in two objects
    turns        an archive of 100,000 members, of which every other is taken, one by one from the end
    slots        one object with 300,000 relocations of type GOTPCREL, to 30,000 names
    threads      one object with 100,000 relocations of types TPOFF32 and GOTTPOFF, to 10,000 thread-local sections
    arrays       5,000 arrays of a function, each with a number, in 500 objects
    huge         500 objects with 1,000 functions each, of 10 calls each: 5,000,000 relocations
    long         350,000 symbols in 350 objects, whose names have 120 bytes, of which the first 100 are alike
    few          one object that takes one of 4,000 members of an archive of 188 MB, by -l
    some         one that takes 100 of them

They lie inside the profile (docs/PROFILE.md), and are made by `as` or by tools/judge/elf.py. The linkers: the proved program
crates/ld/out/ld, and of ld.bfd, ld.gold, ld.lld and mold those that are on PATH, with one thread and one process
each. Each links twice a round: with a symbol table in the image, and with -s, without one. A row is compared with
that of ours of the same kind. The others' tables say more than ours: LOCAL and thread-local symbols stand in them,
and headers of all sections beside them. The first image of each is run, and must end with status 0; those of ours
are checked too, which must be `yes`. The checks are measured like links.

Time is the wall's, memory the greatest resident set, as GNU time tells it (time -f %M), which must be on PATH.
Each number is the median of all runs, which go round the linkers in turn. "By bytes" is that memory by the bytes
of the inputs and of the image; ours should stay at or below 3. Compare ratios of one run of this script, never
numbers of two machines. Doubled inputs show the growth: time and memory by those of the single
input, at most 2.3 for ours and its checks.

The exit status is 1 where a link, a run or a check fails or ours grows above the limit, 2 without the proved
program or GNU time.
"""

import argparse
import os
import random
import shutil
import statistics
import struct
import subprocess
import sys
import tempfile
import time
from pathlib import Path

ROOT = Path(__file__).resolve().parent.parent
sys.path.insert(0, str(ROOT / "tools" / "judge"))

import elf  # noqa: E402

PROVED = ROOT / "crates" / "ld" / "out" / "ld"
GROWTH_LIMIT = 2.3
PEERS = {
    "ld.bfd": ["ld.bfd", "-static"],
    "ld.gold": ["ld.gold", "-static"],
    "ld.lld": ["ld.lld", "-static", "--threads=1"],
    "mold": ["mold", "-static", "--no-threads", "--no-fork"],
}
# The words of a link with a symbol table in its image, and of one without.
KINDS = ([], ["-s"])

STACK = '.section .note.GNU-stack, "", @progbits\n'

# Ends the program with status 0 if the flags say equal, else with 1.
EXIT = """\
        setne %dil
        movzbl %dil, %edi
        movl $60, %eax
        syscall
"""


def assemble(source, out):
    """Assembles a text to the object file `out`."""
    subprocess.run(["as", "-o", str(out), "-"], input=source.encode(), check=True)


def many_objects(folder, count):
    """Objects of 10 functions. Function 0 counts a call, each other one calls two lower ones of other objects; so
    the last function of object 0 counts 2 to the 9 calls."""
    paths = []
    for i in range(count):
        lines = [".text"]
        for j in range(10):
            name = f"f_{i}_{j}"
            lines += [f".globl {name}", f".type {name}, @function", f"{name}:"]
            if j == 0:
                lines += ["incq calls(%rip)"]
            else:
                lines += [f"call f_{(i + step) % count}_{j - 1}" for step in (7, 13)]
            lines += ["ret", f".size {name}, .-{name}"]
        lines += [".data", f"table_{i}:"] + [f".quad f_{i}_{j}" for j in range(10)]
        paths.append(folder / f"o{i}.o")
        assemble("\n".join(lines) + "\n" + STACK, paths[-1])
    start = ".globl _start, calls\n.text\n_start:\ncall f_0_9\ncmpq $512, calls(%rip)\n"
    paths.append(folder / "start.o")
    assemble(start + EXIT + ".bss\n.balign 8\ncalls: .quad 0\n" + STACK, paths[-1])
    return paths


def many_relocations(folder, count):
    """One object: half of its relocations are entries of a table (64), a quarter addresses (PC32), a quarter calls
    (PLT32), of 1,000 functions. The program calls the last one through the table, and expects its number."""
    functions = 1000
    lines = [".globl _start", ".text", "_start:"]
    lines += [f"call *table+{8 * (functions - 1)}(%rip)", f"cmpl ${functions - 1}, %eax", EXIT]
    for k in range(functions):
        name = f"function_{k}"
        lines += [f".globl {name}", f"{name}:", f"movl ${k}, %eax", "ret"]
    for k in range(count // 4):
        lines += [f"call function_{k * 7 % functions}", f"leaq function_{k * 11 % functions}(%rip), %rax"]
    lines += [".data", ".balign 8", "table:"]
    lines += [f".quad function_{k % functions}" for k in range(count // 2)]
    assemble("\n".join(lines) + "\n" + STACK, folder / "relocations.o")
    return [folder / "relocations.o"]


def much_data(folder, size):
    """One object with bytes of chance in .data. The program expects the last ones."""
    end = b"the end."
    raw = folder / "bytes"
    with open(raw, "wb") as file:
        part = random.Random(1).randbytes(min(size, 1 << 20))
        for at in range(0, size - len(end), len(part)):
            file.write(part[: min(len(part), size - len(end) - at)])
        file.write(end)
    lines = [".globl _start", ".text", "_start:"]
    lines += [f"movabsq ${int.from_bytes(end, 'little')}, %rax", "cmpq end_of_data-8(%rip), %rax", EXIT]
    lines += [".data", f'.incbin "{raw}"', ".globl end_of_data", "end_of_data:"]
    assemble("\n".join(lines) + "\n" + STACK, folder / "data.o")
    raw.unlink()
    return [folder / "data.o"]


# incq calls(%rip), with its relocation at 3; call, with its relocation at 1; ret
COUNT = b"\x48\xff\x05" + bytes(4)
CALL = b"\xe8" + bytes(4)
RET = b"\xc3"


def start_object(path, calls, expected):
    """The object that calls functions and expects the number of the calls that they count."""
    lines = [".globl _start, calls", ".text", "_start:"] + [f"call {name}" for name in calls]
    lines += [f"cmpq ${expected}, calls(%rip)", EXIT, ".bss", ".balign 8", "calls: .quad 0"]
    assemble("\n".join(lines) + "\n" + STACK, path)


def counting_object(name, called):
    """An object of one function, which counts a call, and calls another one where there is one."""
    made = elf.Object()
    text = made.section(".text", elf.PROGBITS, elf.ALLOC | elf.EXEC, COUNT + (CALL if called else b"") + RET, 16)
    made.symbol(name, text)
    entries = [(3, elf.PC32, made.symbol("calls", 0), -4)]
    if called:
        entries.append((8, elf.PLT32, made.symbol(called, 0), -4))
    made.relocations(text, entries)
    return made.bytes()


def many_archives(folder, members):
    """20 archives in groups of five. In a group the functions stand in a row, in one archive after the other, and
    each calls the next one; so each round takes a member of each archive."""
    words = [folder / "start.o"]
    in_group = 5 * members
    start_object(words[0], [f"f_{group}_0" for group in range(4)], 4 * in_group)
    for group in range(4):
        words.append("-(")
        for k in range(5):
            parts = []
            for s in range(k, in_group, 5):
                called = f"f_{group}_{s + 1}" if s + 1 < in_group else None
                parts.append(([f"f_{group}_{s}"], counting_object(f"f_{group}_{s}", called)))
            words.append(folder / f"lib{group}_{k}.a")
            words[-1].write_bytes(elf.archive(parts))
        words.append("-)")
    return words


def many_groups(folder, count):
    """Objects like those of C++: each has a function, which calls an inline one, and 50 inline functions in COMDAT
    groups with their relocations, each of which ten objects have."""
    words = [folder / "start.o"]
    start_object(words[0], [f"f_{i}" for i in range(count)], count)
    for i in range(count):
        made = elf.Object()
        calls = made.symbol("calls", 0)
        inline = [f"_ZN6inline8functionILi{(5 * i + k) % (5 * count)}EEEvv" for k in range(50)]
        for k, name in enumerate(inline):
            number = len(made.sections) + 1
            symbol = made.symbol(name, number + 1, elf.WEAK)
            made.section(".group", elf.GROUP, 0, struct.pack("<III", 1, number + 1, number + 2), 4, symbol)
            flags = elf.ALLOC | elf.EXEC | elf.IN_GROUP
            made.section(f".text.{name}", elf.PROGBITS, flags, COUNT + RET, 2)
            made.relocations(number + 1, [(3, elf.PC32, calls, -4)], elf.IN_GROUP)
        text = made.section(".text", elf.PROGBITS, elf.ALLOC | elf.EXEC, CALL + RET, 16)
        made.symbol(f"f_{i}", text)
        made.relocations(text, [(1, elf.PLT32, calls + 1, -4)])
        words.append(folder / f"o{i}.o")
        words[-1].write_bytes(made.bytes())
    return words


def many_names(folder, count):
    """500 objects with names, half of them weak; each weak one is that of two objects, and the first counts."""
    each = count // 1000
    words = [folder / "start.o"]
    start_object(words[0], ["strong_name_0_0", f"weak_name_249_{each - 1}"], 2)
    for i in range(500):
        made = elf.Object()
        text = made.section(".text", elf.PROGBITS, elf.ALLOC | elf.EXEC, COUNT + RET, 16)
        made.relocations(text, [(3, elf.PC32, made.symbol("calls", 0), -4)])
        for j in range(each):
            made.symbol(f"strong_name_{i}_{j}", text)
            made.symbol(f"weak_name_{i // 2}_{j}", text, elf.WEAK)
        words.append(folder / f"o{i}.o")
        words[-1].write_bytes(made.bytes())
    return words


def many_turns(folder, count):
    """One archive. Its last member is needed, and calls the last but two, and so on to the first ones."""
    words = [folder / "start.o", folder / "libturns.a"]
    start_object(words[0], [f"f_{count - 1}"], count // 2)
    parts = []
    for k in range(count):
        called = f"f_{k - 2}" if k >= 2 else None
        parts.append(([f"f_{k}"], counting_object(f"f_{k}", called)))
    words[1].write_bytes(elf.archive(parts))
    return words


# movq through the GOT, with its relocation at 3; call *%rax
LOAD = b"\x48\x8b\x05" + bytes(4)
CALL_LOADED = b"\xff\xd0"


def many_slots(folder, count):
    """One object that loads the addresses of another one's names through the GOT, and calls the last one."""
    names = count // 10
    words = [folder / "start.o", folder / "loads.o", folder / "names.o"]
    start_object(words[0], ["loads"], 1)
    loads = elf.Object()
    text = loads.section(".text", elf.PROGBITS, elf.ALLOC | elf.EXEC, count * LOAD + CALL_LOADED + RET, 16)
    loads.symbol("loads", text)
    numbers = [loads.symbol(f"name_{k}", 0) for k in range(names)]
    loads.relocations(text, [(7 * k + 3, elf.GOTPCREL, numbers[7 * k % names], -4) for k in range(count)])
    words[1].write_bytes(loads.bytes())
    defined = elf.Object()
    text = defined.section(".text", elf.PROGBITS, elf.ALLOC | elf.EXEC, COUNT + RET, 16)
    for k in range(names):
        defined.symbol(f"name_{k}", text)
    defined.relocations(text, [(3, elf.PC32, defined.symbol("calls", 0), -4)])
    words[2].write_bytes(defined.bytes())
    return words


# movl %fs:0, %eax, with its relocation at 4; movq through the GOT, with its relocation at 3
LOAD_THREAD = b"\x64\x8b\x04\x25" + bytes(4)


def many_threads(folder, count):
    """One object with code that loads thread-local variables, and one with these, each in a section of its own. The
    code doesn't run, as nothing makes the storage of the thread."""
    names = count // 10
    words = [folder / "start.o", folder / "loads.o", folder / "names.o"]
    start_object(words[0], ["loads"], 1)
    loads = elf.Object()
    pair = LOAD_THREAD + LOAD
    text = loads.section(".text", elf.PROGBITS, elf.ALLOC | elf.EXEC, COUNT + RET + count // 2 * pair, 16)
    loads.symbol("loads", text)
    numbers = [loads.symbol(f"name_{k}", 0, kind=elf.THREAD_LOCAL) for k in range(names)]
    entries = [(3, elf.PC32, loads.symbol("calls", 0), -4)]
    for k in range(count // 2):
        at = 8 + k * len(pair)
        entries.append((at + 4, elf.TPOFF32, numbers[7 * k % names], 0))
        entries.append((at + 11, elf.GOTTPOFF, numbers[3 * k % names], -4))
    loads.relocations(text, entries)
    words[1].write_bytes(loads.bytes())
    defined = elf.Object()
    for k in range(names):
        flags = elf.ALLOC | elf.WRITE | elf.TLS
        if k % 2:
            section = defined.section(f".tbss.name_{k}", elf.NOBITS, flags, b"", 8, size=8)
        else:
            section = defined.section(f".tdata.name_{k}", elf.PROGBITS, flags, k.to_bytes(8, "little"), 8)
        defined.symbol(f"name_{k}", section, kind=elf.THREAD_LOCAL)
    words[2].write_bytes(defined.bytes())
    return words


def many_arrays(folder, count):
    """Objects with ten numbered arrays each, and a start that calls all functions that these name."""
    order = random.Random(1)
    words = [folder / "start.o", folder / "count.o"]
    lines = [".globl _start, calls", ".text", "_start: movq $__init_array_start, %rbx", "1: cmpq $__init_array_end, %rbx"]
    lines += ["jae 2f", "call *(%rbx)", "addq $8, %rbx", "jmp 1b", f"2: cmpq ${count}, calls(%rip)", EXIT]
    assemble("\n".join(lines + [".bss", ".balign 8", "calls: .quad 0"]) + "\n" + STACK, words[0])
    words[1].write_bytes(counting_object("counted", None))
    for k in range(count // 10):
        made = elf.Object()
        target = made.symbol("counted", 0)
        for _ in range(10):
            array = made.section(f".init_array.{order.randrange(65536):05}", elf.INIT_ARRAY, elf.ALLOC | elf.WRITE, bytes(8), 8)
            made.relocations(array, [(0, elf.ABS64, target, 0)])
        words.append(folder / f"{k}.o")
        words[-1].write_bytes(made.bytes())
    return words


def many_references(folder, count):
    """Objects of 1,000 functions. Each counts a call and returns; behind that it has calls of ten others, which never run."""
    body = COUNT + RET + 10 * CALL
    order = random.Random(1)
    words = [folder / "start.o"]
    start_object(words[0], ["function_0_0", f"function_{count - 1}_999"], 2)
    for i in range(count):
        made = elf.Object()
        text = made.section(".text", elf.PROGBITS, elf.ALLOC | elf.EXEC, 1000 * body, 16)
        for j in range(1000):
            made.symbol(f"function_{i}_{j}", text, value=j * len(body))
        calls, others = made.symbol("calls", 0), {}
        entries = []
        for j in range(1000):
            entries.append((j * len(body) + 3, elf.PC32, calls, -4))
            for k in range(10):
                called = (order.randrange(count), order.randrange(1000))
                if called[0] == i:
                    number = calls - 1000 + called[1]
                else:
                    number = others.get(called) or others.setdefault(called, made.symbol(f"function_{called[0]}_{called[1]}", 0))
                entries.append((j * len(body) + len(COUNT + RET) + 5 * k + 1, elf.PLT32, number, -4))
        made.relocations(text, entries)
        words.append(folder / f"o{i}.o")
        words[-1].write_bytes(made.bytes())
    return words


def long_names(folder, count):
    """350 objects with names of 120 bytes, of which the first 100 are alike, as those of C++ are."""
    each = count // 350
    words = [folder / "start.o"]
    begin = "_ZN" + "5space" * 16 + "f"

    def name(i, j):
        return f"{begin}{i:08}_{j:011}"

    start_object(words[0], [name(0, 0), name(349, each - 1)], 2)
    for i in range(350):
        made = elf.Object()
        text = made.section(".text", elf.PROGBITS, elf.ALLOC | elf.EXEC, COUNT + RET, 16)
        made.relocations(text, [(3, elf.PC32, made.symbol("calls", 0), -4)])
        for j in range(each):
            made.symbol(name(i, j), text)
        words.append(folder / f"o{i}.o")
        words[-1].write_bytes(made.bytes())
    return words


def large_archive(folder, members, taken):
    """An archive of members with 47,000 bytes of data each, searched by -l, and an object that takes some of them."""
    filling = random.Random(1)
    parts = []
    for k in range(members):
        made = elf.Object()
        text = made.section(".text", elf.PROGBITS, elf.ALLOC | elf.EXEC, COUNT + RET, 16)
        made.section(".data", elf.PROGBITS, elf.ALLOC | elf.WRITE, filling.randbytes(47_000), 8)
        made.symbol(f"member_{k}", text)
        made.relocations(text, [(3, elf.PC32, made.symbol("calls", 0), -4)])
        parts.append(([f"member_{k}"], made.bytes()))
    (folder / "liblarge.a").write_bytes(elf.archive(parts))
    words = [folder / "start.o", "-L", str(folder), "-l", "large"]
    start_object(words[0], [f"member_{k * (members // taken)}" for k in range(taken)], taken)
    return words


def few_members(folder, members):
    return large_archive(folder, members, 1)


def some_members(folder, members):
    return large_archive(folder, members, max(1, members // 40))


INPUTS = {
    "objects": (many_objects, 2_000),
    "relocations": (many_relocations, 200_000),
    "data": (much_data, 100_000_000),
    "archives": (many_archives, 500),
    "groups": (many_groups, 2_000),
    "names": (many_names, 1_000_000),
    "turns": (many_turns, 100_000),
    "slots": (many_slots, 300_000),
    "threads": (many_threads, 100_000),
    "arrays": (many_arrays, 5_000),
    "huge": (many_references, 500),
    "long": (long_names, 350_000),
    "few": (few_members, 4_000),
    "some": (some_members, 4_000),
}


class Failed(Exception):
    """A link, a run or a check that went wrong."""


def measured(words, expect=""):
    """Runs words, which print what is expected and end with status 0: seconds and KiB. GNU time stands between,
    since a child of this process would count this one's memory as its own."""
    with tempfile.NamedTemporaryFile("r") as usage:
        timed = [shutil.which("time"), "-f", "%M", "-o", usage.name] + words
        begin = time.perf_counter()
        run = subprocess.run(timed, stdout=subprocess.PIPE, stderr=subprocess.STDOUT, text=True, check=False)
        seconds = time.perf_counter() - begin
        kib = usage.read().split()[-1]
    if run.returncode != 0 or (expect and run.stdout != expect):
        raise Failed(f"{words[0]}: status {run.returncode}: {run.stdout[:2000].strip()}")
    return seconds, int(kib)


def run_image(image):
    """Runs an image, which ends with status 0."""
    image.chmod(0o755)
    status = subprocess.run([str(image)], check=False).returncode
    if status != 0:
        raise Failed(f"{image.name}: the image ends with status {status}")


def row(name, kind):
    """The name of a row: of a linker, or of the check, with the words of a kind."""
    return " ".join([name] + kind)


def is_check(name):
    return name.startswith("--check")


def commands(folder, inputs, ours, peers):
    """The words of each linker and of the check, in both kinds, and the image that each writes or reads, by their
    rows. Before a check there is a link with a map, which is not measured."""
    names = [str(word) for word in inputs]
    table = {}
    for number, kind in enumerate(KINDS):
        if ours:
            image = folder / f"checked{number}"
            checked = [str(PROVED), "-o", str(image), f"-Map={folder / f'map{number}'}"] + kind
            measured(checked + names)
            run_image(image)
            written = folder / f"ours{number}"
            table[row("ours", kind)] = ([str(PROVED), "-o", str(written)] + kind + names, "", written)
            table[row("--check", kind)] = (checked + ["--check"] + names, "yes\n", image)
        for peer in peers:
            written = folder / f"{peer}{number}"
            table[row(peer, kind)] = (PEERS[peer] + ["-o", str(written)] + kind + names, "", written)
    return table


def medians(folder, words, ours, peers, runs):
    """The medians of seconds and KiB, and the bytes of inputs and image, by row. The first round is not counted, and
    its images are run."""
    table = commands(folder, words, ours, peers)
    inputs = sum(word.stat().st_size for word in words if isinstance(word, Path))
    results = {name: [] for name in table}
    for round_number in range(runs + 1):
        for name, (words, expect, image) in table.items():
            if not is_check(name):
                image.unlink(missing_ok=True)
            result = measured(words, expect)
            if round_number > 0:
                results[name].append(result)
            elif not is_check(name):
                run_image(image)
    return {
        name: (
            statistics.median(seconds for seconds, _ in rows),
            statistics.median(kib for _, kib in rows),
            inputs + table[name][2].stat().st_size,
        )
        for name, rows in results.items()
    }


def print_table(title, table):
    """Prints seconds, MiB and memory by bytes of each row, and the first two as ratios to those of ours of its kind."""
    print(f"\n{title}")
    print(f"  {'linker':<12}{'seconds':>10}{'MiB':>10}{'by bytes':>10}{'ours by it':>14}{'memory':>10}")
    for name, (seconds, kib, held) in table.items():
        line = f"  {name:<12}{seconds:>10.3f}{kib / 1024:>10.1f}{1024 * kib / held:>10.2f}"
        ours = table.get(row("ours", name.split()[1:]))
        if ours:
            line += f"{ours[0] / seconds:>14.2f}{ours[1] / kib:>10.2f}"
        print(line)


def print_growth(single, double):
    """Prints how times and memory grow with doubled inputs. Whether ours, and its check, stay within the limit."""
    print("\n  doubled by single: time, memory")
    within = True
    for name, (seconds, kib, _) in double.items():
        growth = (seconds / single[name][0], kib / single[name][1])
        above = (is_check(name) or name.startswith("ours")) and max(growth) > GROWTH_LIMIT
        within = within and not above
        print(f"  {name:<12}{growth[0]:>10.2f}{growth[1]:>10.2f}{'  above ' + str(GROWTH_LIMIT) if above else ''}")
    return within


def one_input(folder, name, scale, ours, peers, runs):
    """Measures an input and the same doubled. Whether ours grows within the limit."""
    make, count = INPUTS[name]
    tables = []
    for factor in (1, 2):
        inside = folder / f"{name}{factor}"
        inside.mkdir()
        size = int(count * scale) * factor
        words = make(inside, size)
        tables.append(medians(inside, words, ours, peers, runs))
        print_table(f"{name}, {size:,}", tables[-1])
        shutil.rmtree(inside)
    return print_growth(*tables)


def main():
    parser = argparse.ArgumentParser(description="Measures the proved linker beside others.")
    parser.add_argument("--runs", type=int, default=5, help="counted runs of each linker (5)")
    parser.add_argument("--scale", type=float, default=1.0, help="the inputs' size, as a part of the whole (1.0)")
    parser.add_argument("--peers-only", action="store_true", help="measure the other linkers alone")
    parser.add_argument("inputs", nargs="*", help=f"of {', '.join(INPUTS)}; all where none is named")
    options = parser.parse_args()
    unknown = [name for name in options.inputs if name not in INPUTS]
    if unknown:
        parser.error(f"no such input: {unknown[0]}")
    ours = not options.peers_only
    if ours and not os.access(PROVED, os.X_OK):
        print("No proved linker stands at crates/ld/out/ld. To get it: cd crates/ld && rt run", file=sys.stderr)
        return 2
    if not shutil.which("time"):
        print("GNU time is not on PATH.", file=sys.stderr)
        return 2
    peers = [peer for peer in PEERS if shutil.which(peer)]
    within = True
    with tempfile.TemporaryDirectory() as folder:
        for name in options.inputs or INPUTS:
            within = one_input(Path(folder), name, options.scale, ours, peers, options.runs) and within
    return 0 if within else 1


if __name__ == "__main__":
    try:
        sys.exit(main())
    except Failed as failed:
        print(failed, file=sys.stderr)
        sys.exit(1)
