"""The order in which another linker loaded the objects of a link: GNU ld and gold list archive members at the head of their maps. Weak
definitions of one name make it count, since the first one is meant. Nothing here needs trust: of a wrong order `ld-judge` says no."""

from typing import Dict, List, Tuple

import elf
from skeleton import Skeleton

# What the list begins with: 'Archive member included to satisfy reference by file (symbol)' or 'included because of file (symbol)'. Behind a
# member, or on the next line, is the file that asked for it, with the symbol.
HEAD = "Archive member included"


def members(text: str) -> List[Tuple[str, str]]:
    """The labels of archive members in the order in which they were loaded, with the symbols for which they were; none without a list."""
    lines = iter(text.split("\n"))
    if not next(lines, "").startswith(HEAD):
        return []
    next(lines, "")
    found: List[Tuple[str, str]] = []
    for line in lines:
        if not line:
            return found
        if not line[0].isspace():
            label, end, asker = line.partition(") ")
            found.append((label + end.strip(), ""))
            line = asker
        if found and line.endswith(")"):
            found[-1] = (found[-1][0], line.rpartition(" (")[2][:-1])
    return found


def defines(it: elf.ObjectFile, name: str) -> bool:
    return any(symbol.name == name and symbol.section != elf.UNDEFINED for symbol in it.symbols)


def numbered(link: Skeleton, loaded: List[Tuple[str, str]]) -> List[int]:
    """The numbers of the members of a list: of several with one label that which has the symbol."""
    numbers: Dict[str, List[int]] = {}
    for number, label in enumerate(link.labels):
        numbers.setdefault(label, []).append(number)
    found: List[int] = []
    for label, symbol in loaded:
        alike = numbers.get(label, [])
        own = [number for number in alike if defines(link.objects[number], symbol)] or alike
        if own:
            alike.remove(own[0])
            found.append(own[0])
    return found


def among_files(link: Skeleton, loaded: List[int]) -> List[int]:
    """All objects: members as listed, each behind all files that the command names before its archive."""
    rows = link.map.objects
    files = [number for number, row in enumerate(rows) if row.offset == 0]
    order: List[int] = []
    for number in loaded:
        while files and rows[files[0]].item < rows[number].item:
            order.append(files.pop(0))
        order.append(number)
    return order + files


def put_order(link: Skeleton, text: str) -> None:
    """Numbers the objects by the order of a map that lists all members, if no group is dropped, which the order could change."""
    order = among_files(link, numbered(link, members(text)))
    if link.map.drops or len(order) != len(link.labels):
        return
    numbers: Dict[int, int] = {old: new for new, old in enumerate(order)}
    link.map.objects[:] = [link.map.objects[old] for old in order]
    link.objects[:] = [link.objects[old] for old in order]
    link.labels[:] = [link.labels[old] for old in order]
    for place in link.map.places:
        place.owner = numbers[place.owner]
    link.map.places.sort(key=lambda place: (place.owner, place.section))
    for name in link.map.names:
        if len(name.meaning) == 3:
            name.meaning = (name.meaning[0], str(numbers[int(name.meaning[1])]), name.meaning[2])
