#!/usr/bin/env python3
"""Puts crates.txt into the order of the floors, writes the map of the crates by subject into docs/ARCHITECTURE.md, the
definitions of code crates into docs/DEFINITIONS.md, the longest chain into docs/PROVING.md, and numbers of crates, laws and edits
into all pages.

    tools/floors.py [--check]

A crate stands one floor above the highest crate that it names. With --check nothing is written, and the status is 1 where
something would be. It is 1, too, where tools/refusals.py refuses something: laws or definitions that stand on code, a crate
whose line lists one that none of its files names, or lacks one that they do, and a crate without a subject here. So it is where
tools/page_facts.py refuses something: a definition of a contract that DEFINITIONS does not name, a file that DEFINITIONS names and
that isn't there, or a wrong star of CLAIMS.
"""
from __future__ import annotations

import itertools
import re
import sys
from typing import Dict, List

from build_times import Plan, read_times
from page_facts import imported, misnamed, numbers, pages_of, unlisted, with_numbers, wrong_stars
from refusals import kind, refusals
from repository import TOP, crates_of_build, lines_of_crates

# The subject of each crate; its name says its kind.
SUBJECTS = {
    "below all": "basic_lemmas out_of_memory",
    "text": "text_definitions text_document_definitions text_document_laws text_partial_laws text_io"
    " memory_io bench_io",
    "table": "table_definitions table_permutation_laws table_walk_laws perm_four finite_walks gluing_table table_commands",
    "skeleton": "skeleton_definitions skeleton_class_laws skeleton_laws skeleton_orientation_laws skeleton vertex_links",
    "signature": "signature_definitions signature_text_laws signature_laws signature_automorphism_laws signature_codec"
    " canonical_labelling signature_census",
    "move": "move_definitions move_laws move_link_laws pachner_moves move_undo move_commands",
    "certificate": "certificate_definitions certificate_laws sphere_certificate"
    " tri_build certificate_commands",
    "cover": "cover_definitions cover_laws cover_relabelling_laws double_cover topology_commands",
    "presentation": "presentation_definitions presentation_laws edge_group",
    "component": "component_definitions component_laws component_signature",
    "cone": "cone_definitions cone_text_definitions cone_laws cone_bound_laws cone_square_laws cone_ray_laws cone_row_laws"
    " support_bits support_table cone_arithmetic cone_core ray_steps double_description lazy_columns number_bounds"
    " row_reduction vertex_enumeration vector_text enumeration_commands",
    "surface": "surface_definitions surface_vector_definitions surface_laws surface_equation_laws"
    " surface_quad_laws surface_quad_lift_laws surface_octagon_laws surface_link_laws"
    " surface_agreement_laws surface_efficiency_laws surface_euler_laws surface_double_laws"
    " surface_relabelling_laws surface_sum_laws surface_crushing_laws normal_discs matching_equations"
    " quad_condition quad_lift surface_pieces surface_properties crushing surface_list surface_refusals vector_commands",
    "sum": "sum_definitions sum_laws ray_decompose sum_commands",
    "command": "command_definitions command_laws command_words command_answers",
    "outcome": "outcome_definitions outcome_laws outcome_existence_laws outcome_answer_laws outcome_written_laws"
    " outcome_list_laws outcome_text_laws",
    "program": "workbench trinorm trinorm_c worked_rows worked_tables worked_cones",
}
MARKS = {
    "subjects": ("<!-- subjects: tools/floors.py -->", "<!-- end of subjects -->"),
    "own": ("<!-- own definitions: tools/floors.py -->", "<!-- end of own definitions -->"),
    "chain": ("<!-- chain: tools/floors.py -->", "<!-- end of chain -->"),
}
# the file that calls the function of each command
DISPATCH = "crates/workbench/src/dispatch.rt"
KINDS = ("definitions", "laws", "code", "program")
Crates = Dict[str, List[str]]
Storeys = List[List[str]]


def read(path: str) -> str:
    try:
        return (TOP / path).read_text("utf8")
    except OSError:
        return ""


def heads() -> Dict[str, str]:
    """Each crate with what stands before the colon of its line: its name, and `staticlib` behind that of a static library."""
    return {head.split()[0]: head for head in lines_of_crates(read("crates.txt"))}


def crates() -> Crates:
    """Each crate with the crates that its line names, those of the kit too."""
    return {head.split()[0]: below for head, below in lines_of_crates(read("crates.txt")).items()}


def floors(known: Crates) -> Dict[str, int]:
    levels: Dict[str, int] = {}

    def level(name: str) -> int:
        if name not in levels:
            levels[name] = 1 + max((level(below) for below in known[name] if below in known), default=-1)
        return levels[name]

    return {name: level(name) for name in known}


def by_floor(levels: Dict[str, int]) -> Storeys:
    return [
        sorted((name for name in levels if levels[name] == floor), key=lambda name: (KINDS.index(kind(name)), name))
        for floor in range(max(levels.values()) + 1)
    ]


def list_text(known: Crates, storeys: Storeys) -> str:
    text, head = "# The crates from the ground up; tools/floors.py keeps the order.\n", heads()
    for floor, names in enumerate(storeys):
        text += f"# floor {floor}\n" + "".join(f"{head[name]}: {' '.join(known[name])}".rstrip() + "\n" for name in names)
    return text


def first_sentence(text: str) -> str:
    """The first sentence of the comment at the head of a file of specs/, without its full stop."""
    lines = itertools.takewhile(lambda line: line.startswith("--"), text.split("\n"))
    said = " ".join(line[2:].strip() for line in lines)
    return re.split(r"(?<=\.)\s", said)[0].rstrip(".").replace("|", "\\|")


def own_text() -> str:
    """The definitions of code crates that the contracts of the program and the library import: a row for each file of specs/."""
    rows = [f"| `{name}`: {file} | {first_sentence(read(f'crates/{name}/specs/{file}.antt'))} |"
            for name, file in sorted(set(imported(TOP))) if kind(name) in ("code", "program")]
    return "\n".join(["| Crate: file | Definition |", "|---|---|", *rows])


def quoted(names: List[str]) -> str:
    """Names as code, with a comma between each two."""
    return ", ".join(f"`{name}`" for name in names)


def functions_of_commands() -> Dict[str, List[str]]:
    """For each crate the commands whose functions it has, by the imports and the cases of the file that calls them."""
    source = read(DISPATCH)
    called = re.findall(r"^        Request::\w+(?:\([\w, ]*\))? => (\w+)\(alloc, ?", source, re.M)
    imports = re.findall(r"^use (\w+)::(?:\{([^}]*)\}|(\w+));", source, re.M)
    return {crate: [name for name in re.split(r",\s*", many or one) if name in called] for crate, many, one in imports}


def map_text(known: Crates) -> str:
    """The map: a row for each subject, with its definitions, laws and code, and the commands of its crates."""
    rows, commands = ["| Subject | Definitions | Laws | Code | Commands |", "|---|---|---|---|---|"], functions_of_commands()
    for subject, names in SUBJECTS.items():
        crates_there = [name for name in names.split() if name in known]
        cells = [quoted([name for name in crates_there if kind(name) in kinds]) for kinds in (("definitions",), ("laws",), ("code", "program"))]
        there = quoted([command for name in crates_there for command in commands.get(name, [])])
        rows.append(f"| {subject} | {' | '.join(cells)} | {there} |")
    return "\n".join(rows)


def chain_text() -> str:
    """The longest chain of a build, with the seconds that build_times.txt has."""
    below = {name: crate.below for name, crate in crates_of_build(TOP).items()}
    times = read_times(TOP / "build_times.txt")
    plan = Plan(below, times, 1)
    names = plan.longest_chain()
    listed = ", ".join(f"`{name}` {round(plan.seconds[name])}" for name in names[:-1])
    total = round(sum(plan.seconds[name] for name in names))
    unmeasured = [f"`{name}`" for name in below if name not in times.crates]
    left_out = f" Not measured yet: {', '.join(unmeasured)}." if unmeasured else ""
    return f"It takes {total:,} s: {listed} and `{names[-1]}` {round(plan.seconds[names[-1]])}.{left_out}"


def with_part(page: str, part: str, text: str, gap: str = "\n") -> str:
    """A page with the text between the marks of a part."""
    begin, end = MARKS[part]
    return re.sub(rf"{begin}.*?{end}", lambda _: f"{begin}{gap}{text}{gap}{end}", page, flags=re.S)


def wanted_files(known: Crates) -> Dict[str, str]:
    """Each file that this tool writes, as it should be."""
    storeys, counted = by_floor(floors(known)), numbers(TOP)
    pages = {path: with_numbers(read(path), counted) for path in pages_of(TOP)}
    for path, part, text, gap in (
        ("docs/ARCHITECTURE.md", "subjects", map_text(known), "\n"),
        ("docs/DEFINITIONS.md", "own", own_text(), "\n"),
        ("docs/PROVING.md", "chain", chain_text(), " "),
    ):
        pages[path] = with_part(pages[path], part, text, gap)
    return {"crates.txt": list_text(known, storeys), **pages}


def main(checking: bool) -> int:
    known = crates()
    refused = refusals(TOP, known, " ".join(SUBJECTS.values()).split())
    definitions = read("docs/DEFINITIONS.md")
    refused += [*unlisted(TOP, definitions), *misnamed(TOP, definitions), *wrong_stars(TOP, read("docs/CLAIMS.md"))]
    for line in refused:
        print(line)
    stale = {path: text for path, text in wanted_files(known).items() if read(path) != text}
    for path, text in stale.items():
        if not checking:
            (TOP / path).write_text(text, "utf8")
        print(("stale: " if checking else "written: ") + path)
    return 1 if refused or (checking and stale) else 0


if __name__ == "__main__":
    sys.exit(main("--check" in sys.argv[1:]))
