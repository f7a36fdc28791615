#!/usr/bin/env python3
"""Tests that the scripts of this folder take no name of an input for words of their own, and no time or traceback for an image
or a map that is made to hurt. No linker is needed.

    tools/judge/test.py
"""

import os
import struct
import subprocess
import sys
import tempfile
import time
import unittest
from pathlib import Path

sys.dont_write_bytecode = True
HERE = Path(__file__).resolve().parent
sys.path.insert(0, str(HERE))

import elf  # noqa: E402
import order  # noqa: E402
import peers  # noqa: E402
import places  # noqa: E402
import script  # noqa: E402

# Stands for `ld`: its map has no line but the first and the last.
LINKER = """#!/bin/sh
for word do
    case $word in
    -Map=*) printf 'ldmap 2\\nend\\n' >"${word#-Map=}" ;;
    esac
done
"""


# Stands for a linker whose links are judged: it tells its words, and writes an image and a map.
PEER = """#!/bin/sh
printf '%s\\n' "$@" >"$TOLD"
[ -z "${PEER_FAILS-}" ] || exit 7
while [ $# -gt 0 ]; do
    case $1 in
    -o) image=$2 ;;
    -Map=*) map=${1#-Map=} ;;
    esac
    shift
done
head -c 64 /dev/zero >zeros
printf '\\177ELF\\2\\1' | cat - zeros >"$image"
echo 'VMA' >"$map"
"""

# Stands for the judge: it tells its words, and says what it is to say.
JUDGE = """#!/bin/sh
printf '%s\\n' "$@" >"$JUDGED"
echo "$SAYS"
exit "$STATUS"
"""


class StandIn(unittest.TestCase):
    """The linker whose links are judged."""

    def run_in(self, folder, words, says="yes", status="0", **more):
        here = Path(folder)
        for name, text in (("ld.peer", PEER), ("judge", JUDGE), ("ours", LINKER)):
            (here / name).write_text(text)
            (here / name).chmod(0o755)
        env = dict(os.environ, LD_JUDGE=str(here / "judge"), JUDGED_LINKER=str(here / "ld.peer"), LD_PROGRAM=str(here / "ours"),
                   TOLD=str(here / "told"), JUDGED=str(here / "judged"), SAYS=says, STATUS=status, **more)
        return subprocess.run([str(HERE / "bin" / "ld"), *words], cwd=folder, env=env, stdout=subprocess.PIPE, stderr=subprocess.PIPE,
                              text=True, check=False)

    def test_the_linker_gets_the_very_words_and_a_map(self):
        with tempfile.TemporaryDirectory() as folder:
            made = self.run_in(folder, ["-static", "-o", "-x", "a b.o", "$(touch bad)"])
            told = (Path(folder) / "told").read_text().splitlines()
            self.assertEqual((made.returncode, made.stdout, made.stderr), (0, "", "judged: -x\n"))
            self.assertEqual(told[:-1], ["-static", "-o", "-x", "a b.o", "$(touch bad)"])
            self.assertTrue(told[-1].startswith("-Map=/"))
            judged = (Path(folder) / "judged").read_text().splitlines()
            self.assertTrue(judged[0].startswith("--certificate=/"))
            self.assertEqual(judged[1:], told[:-1])
            self.assertFalse((Path(folder) / "bad").exists())

    def test_a_map_that_is_asked_for_is_the_only_one(self):
        with tempfile.TemporaryDirectory() as folder:
            self.run_in(folder, ["-o", "x", "-Map=own", "a.o"])
            self.assertEqual((Path(folder) / "told").read_text(), "-o\nx\n-Map=own\na.o\n")
            self.assertTrue((Path(folder) / "own").is_file())

    def test_a_no_is_the_status_and_the_image_stays(self):
        with tempfile.TemporaryDirectory() as folder:
            made = self.run_in(folder, ["-o", "x", "a.o"], "no F5", "1")
            self.assertEqual((made.returncode, made.stderr), (1, "no F5: x\n"))
            self.assertTrue((Path(folder) / "x").is_file())

    def test_a_place_is_told_behind_the_image(self):
        with tempfile.TemporaryDirectory() as folder:
            made = self.run_in(folder, ["-o", "x", "a.o"], "no F7\n  object 0, section 1: bytes", "1")
            self.assertEqual((made.returncode, made.stderr), (1, "no F7: x\n  object 0, section 1: bytes\n"))

    def test_places_are_told_by_names(self):
        made = elf.Object()
        made.symbol("f", 0)
        code = made.section(".text.main", 1, elf.ALLOC | elf.EXEC, bytes(8))
        made.relocations(code, [(3, 4, 1, -4)])
        with tempfile.TemporaryDirectory() as folder:
            path = Path(folder) / "a.o"
            path.write_bytes(made.bytes())
            objects = places.loaded([f"object 0 0 0 {path}", "object 1 2 78 none.a", "place 00000000002010e8 5 0 1 .text"])
            field = f"  object 0, section {code}, offset 3: the field of a relocation of type 4"
            self.assertEqual(places.told(field, objects), f"  {path}:(.text.main+0x3): the field of R_X86_64_PLT32 to f is another one")
            rest = places.told(f"  object 0, section {code}: bytes beside the fields of relocations", objects)
            self.assertEqual(rest, f"  {path}:(.text.main): other bytes than the object's, beside the fields of relocations")
            for line in ("  object 1, section 1: bytes", "  object 0, section 99: bytes", "  object 7, section 1: bytes", "no F1"):
                self.assertEqual(places.told(line, objects), line)

    def test_what_is_not_judged_is_linked(self):
        with tempfile.TemporaryDirectory() as folder:
            made = self.run_in(folder, ["-o", "x", "a.o"], "not judged: words that aren't known", "5")
            self.assertEqual((made.returncode, made.stderr), (0, "not judged: words that aren't known: x\n"))

    def test_a_refused_link_is_not_judged(self):
        with tempfile.TemporaryDirectory() as folder:
            made = self.run_in(folder, ["-o", "x", "a.o"], PEER_FAILS="1")
            self.assertEqual((made.returncode, made.stderr), (7, ""))
            self.assertFalse((Path(folder) / "judged").exists())


class Names(unittest.TestCase):
    def test_plain_names_stand_as_they_are(self):
        self.assertEqual(script.quoted(".text.f"), ".text.f")
        self.assertEqual(script.quoted("dir/a+b.o"), "dir/a+b.o")

    def test_others_are_quoted(self):
        self.assertEqual(script.quoted("a b.o"), '"a b.o"')
        self.assertEqual(script.quoted("*"), '"*"')

    def test_what_ends_a_quoted_name_is_refused(self):
        for name in ('x" INCLUDE "/etc/passwd', ".data\n}\nINCLUDE /etc/passwd", "a\x00b", "a\x7f"):
            with self.assertRaises(SystemExit):
                script.quoted(name)


class Maps(unittest.TestCase):
    HEAD = "          401000           401000        9     1         "

    def test_a_line_of_lld_has_a_file_and_a_section(self):
        found = peers.of_table([self.HEAD + "a(b):(c).o:(.text)", self.HEAD + "a.o:(.text", self.HEAD[:-8] + ".text"], peers.LLD_LINE, 16)
        self.assertEqual({key: list(spots) for key, spots in found.items()}, {("a(b):(c).o", ".text"): [(0x401000, 9)]})

    def test_long_lines_take_no_time(self):
        begin = time.process_time()
        peers.of_table([self.HEAD + "a:(" * 100_000, self.HEAD + ":(" * 100_000 + ")", " " * 300_000], peers.LLD_LINE, 16)
        peers.of_bfd(["Linker script and memory map", " " * 300_000, " a" * 100_000, " " + "a" * 300_000])
        self.assertLess(time.process_time() - begin, 2)


class Orders(unittest.TestCase):
    HEAD = "Archive member included to satisfy reference by file (symbol)"

    def test_members_have_the_symbols_for_which_they_were_loaded(self):
        lines = [self.HEAD, "", "lib.a(f.o)             main.o (f)", "dir/lib.a(g.o)", "                              lib.a(f.o) (g)", "", "x (y)"]
        self.assertEqual(order.members("\n".join(lines)), [("lib.a(f.o)", "f"), ("dir/lib.a(g.o)", "g")])

    def test_maps_without_a_list_tell_no_order(self):
        self.assertEqual(order.members("Memory map\n\nlib.a(f.o) main.o (f)\n"), [])
        self.assertEqual(order.members(""), [])

    def test_long_lines_take_no_time(self):
        begin = time.process_time()
        order.members("\n".join([self.HEAD, "", "a) " * 100_000, " a" * 100_000 + ")", " (" * 100_000 + ")", ") (" * 100_000]))
        self.assertLess(time.process_time() - begin, 2)


class Images(unittest.TestCase):
    def told(self, image):
        """What judge.py says of an image, and its status."""
        with tempfile.TemporaryDirectory() as folder:
            linker, made, shown = (Path(folder) / name for name in ("ld", "image", "map"))
            linker.write_text(LINKER)
            linker.chmod(0o755)
            made.write_bytes(image)
            shown.write_text("")
            ran = subprocess.run([sys.executable, HERE / "judge.py", made, shown, "a.o"], stdout=subprocess.PIPE,
                                 stderr=subprocess.STDOUT, text=True, check=False, env={**os.environ, "LD_PROGRAM": str(linker)})
            return ran.stdout, ran.returncode

    def test_headers_far_outside_are_a_line(self):
        for at in (2**63, 2**62, 100):
            header = bytearray(b"\x7fELF\x02\x01\x01" + bytes(57))
            struct.pack_into("<Q", header, 32, at)
            struct.pack_into("<HH", header, 54, 56, 1)
            said, status = self.told(bytes(header))
            self.assertTrue(said.startswith("judge.py: the image or the map can't be read:"), said)
            self.assertEqual((said.count("\n"), status), (1, 1))

    def test_what_is_no_image_is_a_line(self):
        said, status = self.told(b"\x7fELF")
        self.assertEqual((said.count("\n"), status), (1, 1))


if __name__ == "__main__":
    unittest.main()
