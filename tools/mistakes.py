#!/usr/bin/env python3
"""Makes mistakes that users of a linker make, and prints what ld-why says of each beside what GNU ld, LLD and mold say.

    python3 tools/mistakes.py [--why LD_WHY] [--gnu LD] [--lld LD] [--mold LD] > docs/MISTAKES.md

Each mistake has the facts that our lines must hold: names, files, members, lines, numbers. What they lack is told on
standard error, a line for each mistake. The programs: the proved crates/ld_why/out/ld_why, ld.bfd, the newest ld.lld and
mold. Each mistake is made in a folder of its own by gcc, g++, clang, as, ar and objcopy. At most four lines of each linker are
kept. The exit status is 1 if ours lacks a fact, 2 if a program is missing.
"""

import argparse
import os
import re
import shutil
import subprocess
import sys
import tempfile
from pathlib import Path

ROOT = Path(__file__).resolve().parent.parent
WHY = ROOT / "crates" / "ld_why" / "out" / "ld_why"
MOST = 4

START = ".globl _start\n.type _start, @function\n_start:\n{}\n.size _start, . - _start\n"


def text(name, words):
    """A file with a text."""
    Path(name).write_text(words)
    return name


def c(name, source, *flags, compiler="gcc"):
    """An object from C or C++."""
    words = [compiler, *flags, "-x", "c++" if compiler.endswith("++") else "c", "-c", "-o", name, "-"]
    subprocess.run(words, input=source.encode(), check=True, stderr=subprocess.DEVNULL)
    return name


def asm(name, source, *flags):
    """An object from assembly."""
    subprocess.run(["as", *flags, "-o", name, "-"], input=source.encode(), check=True)
    return name


def start(name="a.o", body="nop"):
    """An object that defines the entry, a function with the body."""
    return asm(name, START.format(body))


def ar(name, words, *members, program="ar"):
    """An archive of members."""
    subprocess.run([program, words, name, *members], check=True, stderr=subprocess.DEVNULL)
    return name


def stale(name, source, other):
    """An archive of a member from assembly that has the index of another one, of the same size, by that name."""
    index, members = (Path(ar(f"{k}.a", "rcs", asm("f.o", words))).read_bytes() for k, words in enumerate((source, other)))
    end = 68 + int(index[56:66])
    Path(name).write_bytes(index[:end] + members[end:])
    return name


def changed(name, at, *values):
    """An object of which bytes are changed."""
    data = bytearray(Path(start("plain.o")).read_bytes())
    data[at : at + len(values)] = bytes(values)
    Path(name).write_bytes(bytes(data))
    return name


def changed_of(name, source, at, *values):
    """An object of an assembly source, of which bytes are changed."""
    data = bytearray(Path(asm(name, source)).read_bytes())
    data[at : at + len(values)] = bytes(values)
    Path(name).write_bytes(bytes(data))
    return name


def c_file(name, source, *flags):
    """An object from a source that has a name."""
    subprocess.run(["gcc", *flags, "-c", text(name, source)], check=True)
    return Path(name).stem + ".o"


def readonly(name, section):
    """An object of which a section can't be written."""
    subprocess.run(["objcopy", "--set-section-flags", f"{section}=alloc,load,readonly,data", name], check=True)
    return name


def folder(name):
    Path(name).mkdir()
    return name


def within(name, library):
    """A library in a folder, and no word."""
    ar(f"{folder(name)}/{library}", "rcs", asm("f.o", ".globl f\nf: ret\n"))
    return []


def named(word, path, own=True):
    """A word for a file that is there: with its path behind it, or by itself."""
    return word + path if own else word


def part(name):
    """The first half of a file."""
    data = Path(name).read_bytes()
    Path(name).write_bytes(data[: len(data) // 2])
    return name


def broken(name):
    """An archive with another byte at the end of the last header."""
    data = bytearray(Path(name).read_bytes())
    data[data.rindex(b"`\n")] = 0
    Path(name).write_bytes(bytes(data))
    return name


def shared(name):
    subprocess.run(["gcc", "-shared", "-nostdlib", "-x", "c", "-o", name, "-"], input=b"int f;\n", check=True)
    return name


MAIN_C = "int f(int);\nint g(int);\nint main(void) { return f(1) + f(2) + g(3) + f(4) + f(5); }\n"
CALL_F = "call f"
HEADER = "int count = 0;\n"
PAGE = "<!DOCTYPE html>\n<html><body>404: there is no such page</body></html>\n"

def mistake(title, facts, make):
    """What is wrong, the facts that our lines must hold, and a function that makes it and answers the words of the link."""
    return title, facts.split("|"), make


FUNCTION = ".globl {0}\n.type {0}, @function\n{0}: ret\n.size {0}, . - {0}\n"
F = FUNCTION.format("f")
INITIALIZERS = '.section .init_array, "aw", @init_array\n.quad 0\n'
# What gcc writes then: a weak name for its debug data.
FAT = '.section .gnu.debuglto_.debug_info, "e"\n.weak a.c.5c171a74\n.hidden a.c.5c171a74\na.c.5c171a74: .zero 50\n'
TABLE = "mov $__init_array_start, %eax\nmov $__init_array_end, %eax"

MISTAKES = [
    mistake("a function is called that nobody defines", "a.o|.text+0x1|_start|f is not defined", lambda: [start(body=CALL_F)]),
    mistake("several are, many times", "m.o|main|f is not defined|g is not defined", lambda: [start(body="call main"), c("m.o", MAIN_C)]),
    mistake(
        "one is, of an object with debug data",
        "m.o|main|f is not defined|m.c:3",
        lambda: [start(body="call main"), c_file("m.c", "int f(int);\n\nint main(void) { return f(1); }\n", "-g")],
    ),
    mistake("a name is misspelt", "a.o|colour is not defined|did you mean color (in b.o)", lambda: [start(body="call colour"), asm("b.o", FUNCTION.format("color"))]),
    mistake(
        "a method of C++ is declared only",
        "m.o|main|_ZN1S3runEv is not defined",
        lambda: [start(body="call main"), c("m.o", "struct S { void run(); };\nint main() { S().run(); }\n", compiler="g++")],
    ),
    mistake(
        "C++ calls a function of C without extern \"C\"",
        "m.o|main|_Z1fi is not defined|f.o|extern \"C\"",
        lambda: [start(body="call main"), c("m.o", "int f(int);\nint main() { return f(1); }\n", compiler="g++"), c("f.o", "int f(int x) { return x; }\n")],
    ),
    mistake(
        "C calls a function of C++",
        "m.o|main|f is not defined|extern \"C\"",
        lambda: [start(body="call main"), c("m.o", "int f(int);\nint main(void) { return f(1); }\n"), c("f.o", "int f(int x) { return x; }\n", compiler="g++")],
    ),
    mistake(
        "a class of C++ has a virtual method that nobody defines",
        "m.o|_ZTV1S is not defined|virtual",
        lambda: [start(body="call main"), c("m.o", "struct S { virtual int run(); };\nint main() { S s; return sizeof s; }\n", "-fno-rtti", compiler="g++")],
    ),
    mistake("a library isn't there", "-lfoo|no directory of -L has libfoo.a", lambda: [start(), "-L.", "-lfoo"]),
    mistake("a library is in a folder that isn't searched", "-lf|no directory of -L has libf.a", lambda: [start(body=CALL_F), *within("lib", "libf.a"), "-lf"]),
    mistake("a library is named by its file", "-llibf.a|no directory of -L has liblibf.a.a", lambda: [start(body=CALL_F), "-L.", named("-l", ar("libf.a", "rcs", asm("f.o", F)))]),
    mistake("of a library there is only a shared object", "-lf|no directory of -L has libf.a", lambda: [start(body=CALL_F), "-L.", named("-lf", shared("libf.so"), own=False)]),
    mistake("a file isn't there", "b.o|there is no such file", lambda: [start(), "b.o"]),
    mistake("a folder is named", "lib|directory", lambda: [start(), folder("lib")]),
    mistake(
        "a library is named before what needs it",
        "a.o|f is not defined|libf.a",
        lambda: [ar("libf.a", "rcs", asm("f.o", F)), start(body=CALL_F)],
    ),
    mistake(
        "the index of a library isn't that of its members",
        "a.o|f is not defined|libf.a|f.o|ranlib",
        lambda: [start(body=CALL_F), stale("libf.a", F, ".globl g\ng: ret\n")],
    ),
    mistake(
        "a library was compiled with -flto, and gcc-ar made its index",
        "a.o|f is not defined|libf.a|f.o|-ffat-lto-objects",
        lambda: [start(body=CALL_F), ar("libf.a", "rcs", c("f.o", "void f(void) {}\n", "-flto"), program="gcc-ar")],
    ),
    mistake(
        "a function is defined twice",
        "a.o|b.o|f",
        lambda: [start(body="f: ret\n.globl f"), asm("b.o", F)],
    ),
    mistake(
        "several functions are defined twice",
        "a.o: symbol 3 g |b.o: symbol 1 g |a.o: symbol 2 f |b.o: symbol 2 f ",
        lambda: [start(body="f: ret\n.globl f\ng: ret\n.globl g"), asm("b.o", FUNCTION.format("g") + F)],
    ),
    mistake("an object is named twice", "a.o|item 0|item 1|_start", lambda: [start(), "a.o"]),
    mistake("a header defines a variable", "a.o|b.o|count|.bss", lambda: [c("a.o", HEADER + "void _start(void) {}\n"), c("b.o", HEADER)]),
    mistake(
        "two libraries define a function",
        "libx.a|liby.a|f.o|g.o|Duplicate (9): f",
        lambda: [start(body="call f\ncall g"), ar("libx.a", "rcs", asm("f.o", F)), ar("liby.a", "rcs", asm("g.o", F + ".globl g\ng: ret\n"))],
    ),
    mistake("nothing is defined as the entry", "_start", lambda: [asm("a.o", ".globl main\nmain: ret\n")]),
    mistake("the named entry isn't defined", "main", lambda: [start(), "-e", "main"]),
    mistake("the entry is a static function", "_start", lambda: [asm("a.o", "_start: nop\n")]),
    mistake("an object is for i386", "a.o|32 bits", lambda: [asm("a.o", ".globl _start\n_start: nop\n", "--32")]),
    mistake("an object is for AArch64", "a.o|AArch64", lambda: [changed("a.o", 18, 183, 0)]),
    mistake("an object is for RISC-V", "a.o|RISC-V", lambda: [changed("a.o", 18, 243, 0)]),
    mistake("a member of a library is for AArch64", "libf.a|f.o|AArch64", lambda: [start(body=CALL_F), ar("libf.a", "rcs", changed_of("f.o", F, 18, 183, 0))]),
    mistake("a shared object is named", "f.so|shared object", lambda: [start(), shared("f.so")]),
    mistake("an executable is named", "a.o|executable", lambda: [changed("a.o", 16, 2, 0)]),
    mistake("a linker script is named as a library", "libm.a|linker script", lambda: [start(), text("libm.a", "/* GNU ld script */\nGROUP ( libm-2.36.a )\n")]),
    mistake("a page of the web is named as a library", "libf.a|text", lambda: [start(body=CALL_F), text("libf.a", PAGE)]),
    mistake("a thin archive is named", "f.a|thin archive", lambda: [start(body=CALL_F), ar("f.a", "rcsT", asm("f.o", F))]),
    mistake("an archive has no index", "f.a|index|ranlib", lambda: [start(body=CALL_F), ar("f.a", "rcS", asm("f.o", F))]),
    mistake("an archive was cut", "f.a(f.o at 0x4e)|Truncated (3)", lambda: [start(body=CALL_F), part(ar("f.a", "rcs", asm("f.o", F)))]),
    mistake("an archive was overwritten in the middle", "f.a(g.o at 0x|BadHeader (4)", lambda: [start(body=CALL_F), broken(ar("f.a", "rcs", asm("f.o", F), asm("g.o", "nop\n")))]),
    mistake("a member of a whole archive is a text", "f.a|note.txt|text", lambda: [start(body=CALL_F), "--whole-archive", ar("f.a", "rcs", asm("f.o", F), text("note.txt", PAGE))]),
    mistake("an object is empty", "a.o|empty", lambda: [text("a.o", "")]),
    mistake("an object was cut", "a.o|section header table|end of", lambda: [part(start("a.o"))]),
    mistake("a source is named", "a.c|source", lambda: [text("a.c", "int main(void) { return 0; }\n")]),
    mistake("clang compiled with -flto", "a.o|LLVM bitcode", lambda: [c("a.o", "void _start(void) {}\n", "-flto", compiler="clang")]),
    mistake("gcc compiled with -flto", "a.o|-flto|_start", lambda: [c("a.o", "void _start(void) {}\n", "-flto")]),
    mistake("gcc compiled with -g -flto -ffat-lto-objects", "a.o|.gnu.debuglto_.debug_info", lambda: [asm("a.o", START.format("nop") + FAT)]),
    mistake(
        "a function is indirect",
        "a.o| f |indirect function",
        lambda: [asm("a.o", START.format("call f") + ".globl f\n.type f, @gnu_indirect_function\nf: ret\n")],
    ),
    mistake(
        "a symbol is unique",
        "a.o| u |unique symbol|-fno-gnu-unique",
        lambda: [asm("a.o", START.format("nop") + ".data\n.globl u\n.type u, @gnu_unique_object\nu: .quad 0\n")],
    ),
    mistake(
        "thread-local storage is addressed as in a shared object",
        "a.o|R_X86_64_TLSGD|-ftls-model|x is not defined",
        lambda: [c("a.o", "extern __thread int x;\nint _start(void) { return x; }\n", "-fPIC", "-ftls-model=global-dynamic")],
    ),
    mistake(
        "a name is thread-local in one object only",
        "a.o|b.o|x is thread-local",
        lambda: [c("a.o", "extern int x;\nint _start(void) { return x; }\n"), c("b.o", "__thread int x = 1;\n")],
    ),
    mistake(
        "a section has to be retained",
        "a.o|.keep|retain",
        lambda: [asm("a.o", START.format("nop") + '.section .keep, "aR", @progbits\n.quad 0\n')],
    ),
    mistake(
        "a section is for writing and for code",
        "a.o|.patch|WRITE|EXECINSTR",
        lambda: [asm("a.o", START.format("nop") + '.section .patch, "awx", @progbits\nret\n')],
    ),
    mistake(
        "an object has .init_array with other flags",
        "a.o|b.o|.init_array|__init_array_start|WRITE",
        lambda: [asm("a.o", START.format(TABLE) + INITIALIZERS), readonly(asm("b.o", INITIALIZERS), ".init_array")],
    ),
    mistake(
        "the program is further up than its code can reach",
        "a.o|.text+0x1|0x200001000|0xffffffff",
        lambda: [start(body="mov $_start, %eax"), "-Ttext-segment=0x200000000"],
    ),
    mistake(
        "data are further away than code can reach",
        "a.o|.text+0x3|near|R_X86_64_PC32",
        lambda: [asm("a.o", START.format("lea near(%rip), %rax") + ".bss\nfar: .zero 0xc0000000\n.globl near\nnear: .zero 8\n")],
    ),
    mistake("data are larger than all memory", "a.o|.bss|0x7fffffffffff0000", lambda: [asm("a.o", START.format("nop") + ".bss\n.zero 0x7fffffffffff0000\n")]),
    mistake("the base is at no page", "-Ttext-segment=0x400010|4096", lambda: [start(), "-Ttext-segment=0x400010"]),
    mistake("the base has no 0x", "-Ttext-segment=400000|0x", lambda: [start(), "-Ttext-segment=400000"]),
    mistake("the base is at the top of memory", "-Ttext-segment=0xffffffff80000000|2^46", lambda: [start(), "-Ttext-segment=0xffffffff80000000"]),
    mistake(
        "code refers into a group that another object has",
        "b.o|.data+0x0|l |.text.g",
        lambda: [
            asm("a.o", START.format("nop") + '.section .text.g, "axG", @progbits, g, comdat\n.weak g\ng: ret\n'),
            asm("b.o", '.section .text.g, "axG", @progbits, g, comdat\n.weak g\ng: ret\nl: ret\n.data\n.quad l\n'),
        ],
    ),
    mistake("the output is in a folder that isn't there", "none/a.out|No such file", lambda: [start(), "-o", "none/a.out"]),
    mistake("the output is a folder", "lib|directory", lambda: [start(), "-o", folder("lib")]),
    mistake("the output is an input", "a.o|read", lambda: [start(), "-o", "a.o"]),
    mistake("the map is in a folder that isn't there", "none/a.map|No such file", lambda: [start(), "-Map=none/a.map"]),
    mistake("an option isn't known", "--gc-section", lambda: [start(), "--gc-section"]),
    mistake("an option lacks its value", "-o|MissingValue (3)", lambda: [start(), "-o"]),
    mistake("a group has no end", "GroupNesting (5)|--end-group", lambda: [start(), "--start-group", ar("libf.a", "rcs", asm("f.o", F))]),
    mistake("a group has no beginning", "word 2 --end-group|--start-group", lambda: [start(), ar("libf.a", "rcs", asm("f.o", F)), "--end-group"]),
]


def lines_of(program, words):
    """The lines that a linker prints, without its own path and without empty ones."""
    run = subprocess.run([str(program), *words], stdout=subprocess.PIPE, stderr=subprocess.STDOUT, check=False)
    own = re.compile(rf"^(?:{re.escape(str(program))}|{re.escape(Path(program).name)}(?=:))")
    here = os.getcwd() + "/"
    lines = [own.sub(Path(program).name.partition("-")[0], line) for line in run.stdout.decode(errors="replace").replace(here, "").splitlines()]
    # mold's temporary file has another name each time.
    return [re.sub(r"\.mold-\w{6}", ".mold-XXXXXX", line) for line in lines if line.strip()]


def theirs_of(word):
    """A word as LLD and mold take it."""
    return word.replace("-Ttext-segment=", "--image-base=")


def block(lines, nothing="(nothing: it links)"):
    """At most four lines, as Markdown has them."""
    if not lines:
        return "    " + nothing
    return "\n".join("    " + line for line in lines[:MOST] + (["..."] if len(lines) > MOST else []))


def written(number, entry, why, others):
    """Prints the section of a mistake, and answers which facts ours doesn't tell."""
    title, facts, make = entry
    words = make()
    ours = lines_of(why, words)
    print(f"## {number}. {title[0].upper() + title[1:]}\n\n`ld {' '.join(words)}`. Ours:\n\n{block(ours, '(nothing)')}\n")
    for label, path in others:
        theirs = ["-z", "noexecstack", *words] if label == "GNU ld" else [theirs_of(word) for word in words]
        print(f"{label}:\n\n{block(lines_of(path, ['-m', 'elf_x86_64', '-static', *theirs]))}\n")
    return [fact for fact in facts if fact not in "\n".join(ours)]


HEAD = """# Mistakes, and what is said of them

What `ld-why` says of mistakes that users of a linker make, beside the lines of GNU ld, LLD and mold, at most four of each. This page is printed by `tools/mistakes.py`, which makes each of them. It knows the facts of each, names, files, members, lines and numbers, and lists on standard error those that our lines lack. Compilers and assemblers give names and offsets, so another version may print others.
"""


def newest_lld():
    found = sorted(Path("/usr/bin").glob("ld.lld-*"), key=lambda p: int(p.name.rpartition("-")[2]))
    return str(found[-1]) if found else shutil.which("ld.lld")


def main():
    parser = argparse.ArgumentParser(description="Prints what is said of mistakes.")
    parser.add_argument("--why", type=Path, default=WHY, help="ld-why (the proved one)")
    parser.add_argument("--gnu", default=shutil.which("ld.bfd"), help="GNU ld")
    parser.add_argument("--lld", default=newest_lld(), help="LLD (the newest)")
    parser.add_argument("--mold", default=shutil.which("mold"), help="mold")
    options = parser.parse_args()
    others = [("GNU ld", options.gnu), ("LLD", options.lld), ("mold", options.mold)]
    if not options.why.is_file() or not all(path for _, path in others):
        print("ld-why, GNU ld, LLD or mold is missing. For the proved ld-why: cd crates/ld_why && rt run", file=sys.stderr)
        return 2
    why, lacking = options.why.resolve(), 0
    print(HEAD)
    for number, entry in enumerate(MISTAKES, 1):
        with tempfile.TemporaryDirectory() as folder_of_it:
            os.chdir(folder_of_it)
            lacks = written(number, entry, why, others)
            os.chdir(ROOT)
        if lacks:
            lacking += 1
            print(f"{number}. {entry[0]}: ours doesn't tell {', '.join(lacks)}", file=sys.stderr)
    return 1 if lacking else 0


if __name__ == "__main__":
    sys.exit(main())
