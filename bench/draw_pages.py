#!/usr/bin/env python3
"""Draws the pictures of docs/PYTHON.md: docs/face-pairing.svg, surface.svg and vertex-link.svg.

    bench/draw_pages.py
"""
from pathlib import Path

import common  # noqa: F401  (finds the package)
import trinorm
from trinorm import pictures

DOCS = Path(__file__).resolve().parents[1] / "docs"


def drawn() -> "dict[str, str]":
    """The pictures by the names of their files."""
    shown = trinorm.zero_efficient("eLMkabcddbrrag")
    assert shown.witness is not None
    return {
        "face-pairing.svg": pictures.face_pairing_svg(trinorm.table("uLMzMzMzMzMzMPcbcdefghijklmnopqrsttthhhhhhhhhhhhhhhhhhhah")),
        "surface.svg": pictures.surface_svg("eLMkabcddbrrag", shown.witness.vector),
        "vertex-link.svg": pictures.vertex_link_svg("cPcbbbiht"),
    }


if __name__ == "__main__":
    for name, picture in drawn().items():
        (DOCS / name).write_text(picture, "utf8")
