#!/usr/bin/env python3
"""Links by lld or GNU ld so that `ld --check` may say yes; tools/judge/judge.py then asks it.

    tools/judge/link.py lld|bfd -o IMAGE -Map=PEERMAP WORDS
    tools/judge/link.py --script lld|bfd WORDS

The words are those of our `ld`, which says what objects they load, and in which order. The other linker gets just these, by
a script (script.py beside this file), and with flags by which it leaves their bytes alone. There are none for all that it
edits; so it gets copies in which strings aren't marked as ones to merge, and notes and unwind tables have other names.

With `--script` nothing is linked: a script for the objects and archives of the words, as they are, is printed. docs/JUDGING.md
tells the flags that go with it. LD_PROGRAM is our linker, where it isn't crates/ld/out/ld; LD_LLD and LD_BFD are the
others, where they aren't ld.lld and ld.bfd.
"""

import os
import re
import shutil
import struct
import subprocess
import sys
import tempfile
from pathlib import Path
from typing import Dict, List

import elf
from script import Script, undefined_weak
from skeleton import Skeleton, skeleton, value_of

PEERS = {
    "lld": [os.environ.get("LD_LLD", "ld.lld"), "-static", "-O0", "--no-relax", "-z", "norelro", "-z", "noseparate-code"]
    + ["--no-dependent-libraries"],
    "bfd": [os.environ.get("LD_BFD", "ld.bfd"), "-static", "--traditional-format", "--no-relax", "-z", "norelro"]
    + ["-z", "noexecstack", "--no-ld-generated-unwind-info", "-z", "max-page-size=4096", "-z", "common-page-size=4096"],
}
# Sections that a linker edits, and other names of the same lengths. GNU ld leaves .eh_frame alone by --traditional-format.
EDITED = {
    "lld": {".eh_frame": ".eh-frame", ".note.gnu.property": ".note.gnu-property"},
    "bfd": {".note.gnu.property": ".note.gnu-property"},
}


def plain(it: elf.ObjectFile, edited: Dict[str, str]) -> bytes:
    """An object that a linker doesn't edit: no section has the flags MERGE and STRINGS, and some have other names."""
    data = bytearray(it.data)
    start, size, _, names = struct.unpack_from("<Q", data, 40) + struct.unpack_from("<HHH", data, 58)
    table = struct.unpack_from("<Q", data, start + size * names + 24)[0]
    for number, section in enumerate(it.sections):
        header = start + size * number
        struct.pack_into("<Q", data, header + 8, section.flags & ~(elf.MERGE | elf.STRINGS))
        if section.name in edited:
            at = table + struct.unpack_from("<I", data, header)[0]
            data[at : at + len(section.name)] = edited[section.name].encode()
    return bytes(data)


def written(link: Skeleton, folder: Path, peer: str) -> List[str]:
    """Writes the objects to numbered files; their paths."""
    paths = []
    for number, it in enumerate(link.objects):
        path = folder / f"{number}.o"
        path.write_bytes(plain(it, EDITED[peer]))
        paths.append(str(path))
    return paths


def rename(shown: Path, folder: str, link: Skeleton, edited: Dict[str, str]) -> None:
    """Names objects and sections in the other linker's map as the words and the objects do."""
    text = shown.read_text(errors="surrogateescape")
    text = re.sub(re.escape(folder) + r"/(\d+)\.o", lambda found: link.labels[int(found[1])], text)
    for known, other in edited.items():
        text = text.replace(other, known)
    shown.write_text(text, errors="surrogateescape")


def link_by(peer: str, words: List[str]) -> int:
    """Links. The exit status is the other linker's."""
    image, shown = value_of(words, "-o", "a.out"), value_of(words, "-Map=", "")
    if not shown:
        sys.exit("link.py: -Map= is missing")
    if not shutil.which(PEERS[peer][0]):
        sys.exit(f"link.py: {PEERS[peer][0]} is not on PATH")
    link = skeleton(words)
    with tempfile.TemporaryDirectory() as name:
        script, objects = Path(name) / "script", Path(name) / "objects"
        script.write_text(text_of(peer, words, link, by_file=False), errors="surrogateescape")
        objects.write_text("\n".join(written(link, Path(name), peer)))
        flags = ["--build-id=none", "-T", str(script), "-o", image, f"-Map={shown}", f"@{objects}"]
        status = subprocess.run(PEERS[peer] + flags, check=False).returncode
        if status == 0:
            rename(Path(shown), name, link, EDITED[peer])
    return status


def text_of(peer: str, words: List[str], link: Skeleton, by_file: bool) -> str:
    """The script: for the copies, or by the names of files. GNU ld would make entries for names that nothing defines."""
    edited = {} if by_file else EDITED[peer]
    absent = undefined_weak(link) if peer == "bfd" else []
    return Script(link, words, edited, by_file).text(absent)


def main() -> int:
    words = sys.argv[1:]
    only_script = words[:1] == ["--script"]
    words = words[1:] if only_script else words
    if not words or words[0] not in PEERS:
        sys.exit("usage: link.py [--script] lld|bfd -o IMAGE -Map=PEERMAP WORDS")
    if only_script:
        print(text_of(words[0], words[1:], skeleton(words[1:]), by_file=True), end="")
        return 0
    return link_by(words[0], words[1:])


if __name__ == "__main__":
    try:
        sys.exit(main())
    except OSError as error:
        sys.exit(f"link.py: {error}")
