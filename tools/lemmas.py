#!/usr/bin/env python3
"""Writes docs/PROOFS.md: what each file of lemmas proves, crate by crate, by the comment at its head.

    python3 tools/lemmas.py [--check]

With --check nothing is written; the exit status is 1 where the document isn't what the files say, where a file has no such
comment, and where one of a large folder is in no layer (LAYERS below).
"""

import sys
from pathlib import Path

ROOT = Path(__file__).resolve().parent.parent
DOCUMENT = ROOT / "docs" / "PROOFS.md"
HEAD = """# Lemmas

What each file of lemmas proves, so that one is found before it is written again. It is made by `tools/lemmas.py` from the
comments at the heads of the files `crates/NAME/proofs/*.antt`; the answers to a function's goals are in the folders beside
them, named after the module and the function.

Crates are in the order of `crates.txt`. A crate may use the lemmas of those below it that their
`proofs/Lib.antt` makes public. `rt lemma WORD..` finds lemmas of the standard library.
"""
# The folders with more than twenty files, layer by layer.
LAYERS = {
    "elf_model": {
        "Lists, tables and numbers": "ArrayOrder DecimalDigits Finding FirstNamed Found Listed Mapped MarkedNumbers Marks"
        " NamedEntries Neighbours Numbering Pairs PairsPermuted PowersOfTwo RangeOrder Rests RoundedUp",
        "Records": "RecordLaws Spelled",
        "Loading and groups": "DroppedSections LoadedItems LoadingBounds LoadingLaws LoadingSteps SharedSections",
        "Names": "BlockNames Blocks ChosenSymbols LinkerLines LinkerUses Listing RisingNames SymbolRows TableLaws UsedNames",
        "Pieces and the own layout": "Addresses Grouped OwnOrder OwnRelation PieceAlignments PieceBounds PieceNumbers"
        " PieceSteps Places Running SameOutput ThreadPlaces",
        "Relocations and slots": "FlatRelocations KindWidths NoSlots OwnFields RelocationFields SameRequests Sectioned"
        " WrappedValues",
    },
    "resolve": {
        "Walks and lists": "Gathered KeptSteps Rests SoundWalk Walks",
        "Definitions and their places": "ChosenLaws ChosenPlaces Located NamedNumbers NamedOnce Offers PlacesByNumber"
        " Takings ThreadFlags",
        "Common blocks and the linker's own names": "ArrayNames BlockNames LeftNames",
        "Output sections": "Leaders NamedOutputs OutputKeys OutputSteps SectionWalks",
    },
    "debug_image": {
        "Sections of memory": "FirstSections MappedImages MappedRows MappedRuns OwnHeaders Runs SectionSteps",
        "Debug data": "AnySteps DataSteps FieldLawSteps FieldSteps IndexSteps JoinedSteps KeptSteps NamedUses RangeSteps"
        " StandInSteps",
        "Tables and the file": "LinkImages LinkTables PlainParts PlainSteps RowSteps",
    },
    "layout": {
        "Pieces and their output sections": "Alignments ArraySteps GotPieces GroupSteps Leading OrderSteps PartSteps"
        " PieceEntries",
        "Addresses and segments": "EndSteps Entries LaidSteps OwnAddresses",
        "Bounds": "ExtentSteps OtherPlaces OwnBounds PlaceSteps",
        "Thread-local storage": "OwnThreads ThreadSteps",
        "Kinds and mixed output sections": "KindLemmas MixedOutputs",
    },
    "check_link": {
        "Names, definitions and common blocks": "Asked AtNumbers CommonEntries CommonRows Defined Hints Positions SymbolNumbers"
        " Walked",
        "Pieces and output sections": "Alignments ByNames Gathering Padded PieceLemmas PlaceKeys PlaceSteps RunParts SameOutput"
        " SeenOutputs",
        "Slots": "PositionSteps SameRequest SlotLines SlotSteps",
    },
    "check_places": {
        "Lists and numbers": "ArrayRanks Lines",
        "Sections and where they are": "DropSteps NearSteps NextPieces",
        "Images and memory": "ImageFaults SegmentsApart Sweep",
    },
    "check_tables": {
        "The lines of symbols": "CountedLines OwnChoices SymbolLines",
        "The table's bytes": "TableClause TableEntries TableLines TableParts TableSteps",
    },
    "checker": {
        "Lists and numbers": "Filtered PartsOfLists Spelled",
        "Sections and where they are": "LinkRows PieceOrder PieceSections PlacedFacts",
        "Images and memory": "Parts Regions RisingFields RisingLink RisingOrder Runs Stretching Sweeping"
        " ThingsOfSegment ThreadBlocks",
        "The GOT": "GotSteps SlotCounts",
        "The verdict": "Clauses Verdicts",
    },
    "linker": {
        "The link and its refusals": "FinalRefusals Links OwnUnfit Tabled Values",
        "The own map": "DropLines OwnCommons OwnMaps OwnSpelled PlaceLines SlotLines SpelledMaps Spellings SymbolLines",
        "Its text": "Behind OwnTexts",
        "The definitions in order": "Beginnings InOrderLaws LevelLaws Listings NameKeyLaws SortedOnce",
    },
    "own_link": {
        "The image file": "Bytes HeaderTable ImageOwn ImageRead ImageRight SegmentHeaders",
        "Segments": "Ends SegmentEnds SegmentPieces Segments SegmentsOwn",
        "Things in memory": "ApartThings Held LoadedThings Nothing OwnThings Rights ZeroFilled",
        "The GOT": "OwnGot OwnSlots SlotLaws",
        "Thread-local storage": "ThreadBlock ThreadHeaders",
        "The law": "OwnLayouts OwnRight",
    },
}


def crates():
    """The names of the crates, in the order of crates.txt."""
    lines = (ROOT / "crates.txt").read_text().splitlines()
    return [line.split(":")[0].split()[0] for line in lines if line.strip() and not line.startswith("#")]


def comment(path):
    """The comment at the head of a file, in one line."""
    words = []
    for line in path.read_text().splitlines():
        if not line.startswith("--"):
            break
        words += line[2:].split()
    return " ".join(words)


def rows(paths, faults):
    """A table of files and what they prove."""
    lines = ["| file | what it proves |", "|---|---|"]
    for path in paths:
        said = comment(path)
        if not said:
            faults.append(f"{path.relative_to(ROOT)}: no comment at its head")
        lines.append(f"| `{path.stem}` | {said.replace('|', chr(92) + '|')} |")
    return lines


def section(crate, faults):
    """The part of the document on a crate; none where it has no lemmas."""
    paths = sorted(path for path in (ROOT / "crates" / crate / "proofs").glob("*.antt") if path.stem != "Lib")
    if not paths:
        return []
    lines = ["", f"## {crate}"]
    if crate not in LAYERS:
        if len(paths) > 20:
            faults.append(f"{crate}: more than twenty files and no layers (tools/lemmas.py, LAYERS)")
        return lines + [""] + rows(paths, faults)
    named = {path.stem: path for path in paths}
    for layer, words in LAYERS[crate].items():
        unknown = [name for name in words.split() if name not in named]
        faults += [f"{crate}: no file {name}.antt (tools/lemmas.py, LAYERS)" for name in unknown]
        found = [named.pop(name) for name in words.split() if name in named]
        lines += ["", f"**{layer}**", ""] + rows(found, faults)
    faults += [f"{crate}: {name}.antt is in no layer (tools/lemmas.py, LAYERS)" for name in named]
    return lines


def main():
    faults, lines = [], HEAD.splitlines()
    for crate in crates():
        lines += section(crate, faults)
    text = "\n".join(lines) + "\n"
    if "--check" in sys.argv[1:]:
        if not DOCUMENT.exists() or DOCUMENT.read_text() != text:
            faults.append("docs/PROOFS.md isn't what the files say: tools/lemmas.py writes it")
    else:
        DOCUMENT.write_text(text)
    for fault in faults:
        print(fault)
    return 1 if faults else 0


if __name__ == "__main__":
    sys.exit(main())
