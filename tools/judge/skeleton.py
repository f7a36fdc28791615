"""What `ld` itself makes of the words: which objects are loaded, and its map. The judge puts another linker's addresses
into this map."""

import os
import subprocess
import sys
import tempfile
from pathlib import Path
from typing import List, NamedTuple, Tuple

import elf
import linkmap

ROOT = Path(__file__).resolve().parent.parent.parent
# Where tools/install.sh has put this script, the program is beside libexec.
INSTALLED = (Path(__file__).resolve().parent.parent / "commit").is_file()
PROVED = ROOT.parent / "bin" / "cakthuy-ld" if INSTALLED else ROOT / "crates" / "ld" / "out" / "ld"
PROGRAM = os.environ.get("LD_PROGRAM", str(PROVED))
# What hands on the words of other linkers that our `ld` takes.
DRIVER = Path(__file__).resolve().parent.parent / ("ld" if INSTALLED else "driver/ld")


class Skeleton(NamedTuple):
    """The map, and of each object of it its contents and its label: PATH, or PATH(MEMBER) as other linkers' maps have it."""

    map: linkmap.LinkMap
    objects: List[elf.ObjectFile]
    labels: List[str]

    def section(self, place: linkmap.Place) -> elf.Section:
        """The section header of a piece."""
        return self.objects[place.owner].sections[place.section]

    def named(self, place: linkmap.Place) -> str:
        """A piece by its object's label and its name."""
        return f"{self.labels[place.owner]}:({self.section(place).name})"


def run(words: List[str], driven: bool = False) -> "subprocess.CompletedProcess[str]":
    """Runs `ld`; driven, by the script that stands in for other linkers, with words of theirs."""
    if not os.access(PROGRAM, os.X_OK):
        sys.exit(f"There is no linker at {PROGRAM}. To get the proved one in the tree: cd crates/ld && rt run")
    env = dict(os.environ, LD_PROGRAM=PROGRAM) if driven else None
    return subprocess.run([str(DRIVER) if driven else PROGRAM] + words, stdout=subprocess.PIPE, text=True, env=env, check=False)


def opened(loaded: linkmap.Loaded) -> Tuple[str, elf.ObjectFile]:
    """Label and contents of an object of a map."""
    data = Path(loaded.path).read_bytes()
    if not data.startswith(b"!<arch>\n"):
        return loaded.path, elf.ObjectFile(data)
    name, inner = elf.member(data, loaded.offset)
    return f"{loaded.path}({name})", elf.ObjectFile(inner)


def skeleton(words: List[str], driven: bool = False) -> Skeleton:
    """Links the words by `ld`, without a symbol table, and opens what was loaded. Ends where the words are refused."""
    with tempfile.TemporaryDirectory() as folder:
        text = Path(folder) / "map"
        made = run(words + ["-s", "-o", f"{folder}/image", f"-Map={text}"], driven)
        if made.returncode != 0:
            sys.exit(made.returncode)
        found = linkmap.read(text.read_text())
    both = [opened(loaded) for loaded in found.objects]
    return Skeleton(found, [it for _, it in both], [label for label, _ in both])


def value_of(words: List[str], short: str, default: str) -> str:
    """The value of -e or -Ttext-segment= among words; the last one counts."""
    found = default
    for word, after in zip(words, words[1:] + [""]):
        if word == short:
            found = after
        elif short.endswith("=") and word.startswith(short):
            found = word[len(short) :]
    return found


def base_of(words: List[str]) -> int:
    return int(value_of(words, "-Ttext-segment=", "0x400000"), 16)
