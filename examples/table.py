#!/usr/bin/env python3
"""Writes the examples as a table for the tests of cd_runs, which can read no files: crates/cd_runs/src/examples.rt.

    examples/table.py            writes it
    examples/table.py --check    fails where it is not what the examples say
"""
import sys
from pathlib import Path

ROOT = Path(__file__).resolve().parent.parent
TABLE = ROOT / "crates/cd_runs/src/examples.rt"

HEAD = """//! The ontologies of `examples/` with the texts of their taxonomies: written by `examples/table.py` from the files there.

"""


def quoted(text):
    return '"' + text.replace("\\", "\\\\").replace('"', '\\"').replace("\n", "\\n") + '"'


def rows(name, doc, folder):
    inputs = sorted(folder.glob("*.ofn"))
    lines = [f"/// {doc}", f"pub(crate) const {name}: [(&str, &str); {len(inputs)}] = ["]
    for path in inputs:
        texts = path.read_text(), path.with_suffix(".out").read_text()
        lines += ["    ("] + [f"        {quoted(text)}," for text in texts] + ["    ),"]
    return "\n".join(lines + ["];", ""])


def table():
    return (
        HEAD
        + rows("EXAMPLES", "Each with its answer.", ROOT / "examples")
        + "\n"
        + rows(
            "SMALL",
            "Each with the answer that all its interpretations of up to three elements give, or of two where those of three are very many.",
            ROOT / "examples/small",
        )
    )


if sys.argv[1:] == ["--check"]:
    if TABLE.read_text() != table():
        sys.exit("crates/cd_runs/src/examples.rt is not what examples/ says: run examples/table.py")
else:
    TABLE.write_text(table())
