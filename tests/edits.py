#!/usr/bin/env python3
"""Says of every wrong program under must-fail whether its edit can be made: each old text stands exactly once in its file, as the
pairs before it left the file. The gate would say so too, but only after it has proved every crate.

  edits.py
"""
from pathlib import Path

from require import require

ROOT = Path(__file__).resolve().parent.parent
FOLDER = "must-fail"  # where the wrong programs of a crate stand


def made(edit: Path) -> tuple[dict[str, str], list[str]]:
    """The files of its crate that an edit changes, with their new texts, and the old texts that do not stand exactly once."""
    crate, texts, file, old, misfits = edit.parent.parent, {}, "", "", []
    for line in edit.read_text().splitlines():
        word, _, rest = line.partition(":")
        text = rest.removeprefix(" ")
        if word == "file":
            file = text
            require(file.split("/")[0] in ("src", "specs", "proofs") and ".." not in file.split("/"), "an edit stays in its crate:", file)
            texts.setdefault(file, (crate / file).read_text())
        elif word == "old":
            old = text
        elif word == "new":
            if texts[file].count(old) != 1:
                misfits.append(f"{edit.relative_to(ROOT)}: {texts[file].count(old)} times in {file}: {old}")
            texts[file] = texts[file].replace(old, text, 1)
    return texts, misfits


def main() -> None:
    edits = sorted(ROOT.glob(f"crates/*/{FOLDER}/*.edit"))
    found = [misfit for edit in edits for misfit in made(edit)[1]]
    require(not found, "each old text of an edit stands once in its file", *(f"\n  {misfit}" for misfit in found))
    print(f"edits: the texts of {len(edits)} edits stand where they are said to")


if __name__ == "__main__":
    main()
