#!/usr/bin/env python3
"""Writes docs/READING.md: what the theorem on `surfaces` says, in full, on one page.

The page has the clause of the contract of `run`, and each definition in `crates/*/specs` that its table, its equations, its
clashing pairs and its list rest on, after those that it uses. They go down to the words of the kit's standard library and of the
command line, which EXPLAINED has in words. A word or a sign on the page that is neither defined there nor explained is an error.

    tools/reading.py            writes the page
    tools/reading.py --check    says whether the page is up to date, with status 1 if it is not
"""
from __future__ import annotations

import re
import sys
from typing import Dict, Iterator, List, NamedTuple, Sequence, Set, Tuple

from definitions import Definitions, Item, Key
from laws import safe, written
from repository import TOP

PAGE = TOP / "docs" / "READING.md"
CLAUSES = TOP / "crates" / "workbench" / "src" / "dispatch.rt"
MAIN = TOP / "crates" / "trinorm" / "src" / "main.rt"


class Part(NamedTuple):
    """A part of the page: its title, a paragraph, and the definitions that it is about."""

    title: str
    text: str
    roots: Sequence[Key]


PARTS = (
    Part("The table", "A gluing table: which faces of tetrahedra are glued, and how. A permutation of four is the list of the images "
         "of 0, 1, 2 and 3.", [("table_definitions", "Table", "IsTable")]),
    Part("The equations", "First the columns of a vector. Then the matching equations of standard and octagon coordinates: one for each vertex of "
         "each pair of glued faces, which says that both sides have equally many normal arcs around this vertex. Quad coordinates have one "
         "equation for each internal edge instead. It is read along a *tour* around the edge, which visits the tetrahedra around the edge "
         "one after another. Edges are identified if a chain of gluings carries one to the other.",
         [("surface_definitions", "Coordinates", "columns"), ("surface_definitions", "QuadEquations", "AreEquations")]),
    Part("The clashing pairs", "The quadrilateral condition: at most one quad or octagon type in each tetrahedron, and at most one octagon "
         "type in all.", [("surface_definitions", "Coordinates", "clash_list")]),
    Part("The list", "The vertex surfaces are the primitive extreme solutions at which no two clashing columns are nonzero. The list has "
         "exactly these. That extreme solutions, which have minimal support, are those on extreme rays of the cone of solutions is "
         "Theorem 13 of [CLAIMS](CLAIMS.md#cones). The last definitions are those of the clause.",
         [("cone_definitions", "Surfaces", "IsSurfaceList"), ("workbench", "Prints", "AnswersSurfaces")]),
)

# definitions that are only explained: grammar, which FORMATS has in words, and the number above the limit
LEFT_OUT = {"listing", "NamesLarge", "table_enumeration", "Coords", "Standard", "Quad", "Octagon", "Order", "Status", "Done", "ReadFault",
            "WriteFault", "NoMemory"}

# A sentence on each definition, for a reader of this page. A definition without one has its comment, which may speak of the file
# around it. Each is of a definition on the page.
SENTENCES = {
    "Gluing": "what a face is glued to: the tetrahedron across it, and a permutation of the vertices. The permutation maps the vertices of the "
              "face as they are glued, and the vertex opposite the face to the vertex opposite the face that is reached",
    "Row": "a row of a gluing table: the gluings of the four faces of a tetrahedron, with `None` at a boundary face",
    "max_tets": "the greatest number of tetrahedra in a table",
    "Face": "a face of a tetrahedron. Face f is opposite vertex f",
    "glue": "the gluing of the face x; `None` if x is a boundary face or does not exist",
    "has": "whether n is in the list ns",
    "is_permutation": "whether the list p has four entries, and each of 0 to 3 is one of them",
    "IsPermutationOfFour": "the list p is a permutation of 0, 1, 2 and 3",
    "same_face": "whether two faces are equal",
    "image": "the image of v under p",
    "other_side": "the face that the gluing g of the face x reaches",
    "preimage": "the preimage of w under p",
    "inverse": "the inverse of p: for each w, the v with p(v) = w",
    "inverse_gluing": "the inverse of the gluing g of the face x. It glues the face that g reaches to x",
    "IsTable": "a gluing table has at most 1,000 rows of four entries each. Each gluing has a permutation and a tetrahedron of the table. It "
               "reaches a face other than its own, and that face is glued by the inverse",
    "has_triangles": "whether vectors in these coordinates have columns of triangles. In all coordinates they have columns of quads",
    "triangles_each": "the number of triangle columns of one tetrahedron. They come first",
    "before_octagons": "the number of triangle and quad columns of one tetrahedron. Its octagon columns come after them",
    "has_octagons": "whether vectors in these coordinates have columns of octagons",
    "columns_each": "the number of columns of one tetrahedron",
    "columns": "the number of columns of n tetrahedra",
    "EquationRow": "the row of an equation: some columns, each with its coefficient. The other columns have the coefficient 0. A row is 0 at a "
                   "vector that solves the equation",
    "Equation": "an equation: the sum of the entries in the columns `left` equals the sum of those in the columns `right`. A column counts as "
                "often as it is listed",
    "times_in": "the number of occurrences of n in the list ns",
    "coefficient": "the coefficient of column c: how often it is listed on the left, minus how often on the right",
    "term_of": "the coefficient of column c in an equation, with the column, unless it is 0",
    "row_of": "the row of the equation e in n columns",
    "tri_column": "the column of the triangle around vertex v of tetrahedron t",
    "quad_column": "the column of the quad of type k in tetrahedron t. Type 0 separates vertices 01 from 23, type 1 separates 02 from 13, and "
                   "type 2 separates 03 from 12",
    "partners": "for each quad type, the list of the other vertices on the same side of the quad as vertices 0, 1, 2 and 3",
    "keeping": "the quad type with the vertices x and y on one side",
    "oct_column": "the column of the octagon of type k in tetrahedron t. It crosses two opposite edges twice: type 0 the edges 01 and 23, type "
                  "1 the edges 02 and 13, type 2 the edges 03 and 12",
    "three": "the types 0, 1 and 2",
    "octagon_types": "the types of octagons that have columns",
    "octagon_arcs": "the columns of the octagons with an arc around v in face f of tetrahedron t: those of two types",
    "arc_columns": "the columns of the discs with an arc around v in face f of tetrahedron t: the triangle at v, the quad with v and f on one "
                   "side, and octagons",
    "matching": "the matching equation of the face x with the gluing g, at its vertex v. There are as many arcs around v in x as around the "
                "image of v in the face that is reached",
    "others": "the vertices other than f",
    "is_face_before": "the order of faces: by tetrahedron, then by number",
    "smaller_side": "a glued face with its gluing, if it comes before the face that it is glued to",
    "pairs_of": "all pairs of a member of xs and a member of ys, in the order of xs, then of ys",
    "faces": "all faces of n tetrahedra, in order",
    "glued_pairs": "the pairs of glued faces, in order. Each is given by the first of its faces, with its gluing",
    "matching_equations": "the matching equations, in standard and octagon coordinates: one for each pair of glued faces and each vertex of the "
                          "first face",
    "matching_rows": "the rows of the matching equations",
    "IsNumbering": "the numbers below n are in `count` classes, and `classes` has the class of each. Two are in one class if and only if `Same` "
                   "relates them. Classes are numbered in the order of their least members",
    "Place": "a tetrahedron with a list of some of its vertices, for example the two ends of an edge",
    "carried": "the image of the place p under the gluing g of a face that contains it",
    "across": "the image of the place p under the gluing of face f. `None` if p is not contained in face f, or f is a boundary face",
    "along": "the place at which a chain of gluings ends that starts at p and crosses the faces fs, one after another. `None` if some face "
             "cannot be crossed",
    "IsJoined": "some chain of gluings carries p to q",
    "edge_ends": "the two ends of each of the edges 0 to 5 of a tetrahedron",
    "ends": "the two ends of edge e of a tetrahedron",
    "edge": "edge i: the edge i % 6 of tetrahedron i / 6",
    "backwards": "the place p with its vertices in reverse order",
    "SameEdge": "edges i and j are identified by gluings, in either direction",
    "Corner": "a corner: the edge ab of a tetrahedron, as part of a tour around that edge. The tour enters the tetrahedron through face d and "
              "leaves it through face c",
    "corner_across": "the next corner of the tour, across face c with the gluing g",
    "left_through": "the face through which the tour leaves a corner",
    "step": "the next corner of the tour. `None` if face c is a boundary face",
    "steps": "the corner after n steps of the tour",
    "Reaches": "some number of steps leads from corner k to corner l",
    "AreCorners": "the list has all corners that the tour reaches from the first, each once",
    "corner_of": "the corner of tetrahedron t with the edge `edge` and the two other vertices `rest`",
    "first_corner": "the corner of edge i at which the tour starts: a and b are the ends of the edge, c and d the two other vertices, with a < "
                    "b and c < d",
    "least": "the least member of class c",
    "quad_equation": "the quad equation of an edge, with a sum over the corners of its tour. There are as many quads with a and c on one side "
                     "as quads with a and d on one side",
    "IsQuadRow": "the row of the quad equation of edge class c. Its tour starts at the least edge of the class",
    "is_boundary": "whether the face x is a boundary face",
    "lies_in_boundary": "whether edge i lies in a boundary face of its tetrahedron",
    "is_boundary_edge": "whether some edge of class c lies in a boundary face",
    "internal_edges": "the classes of internal edges, in order",
    "AreQuadRows": "there is one row for each class of internal edges, in order",
    "AreQuadEquations": "the quad equations of a table: the classes are those of its edges under gluings, and each class of internal edges has "
                        "one row",
    "AreEquations": "the equations of a table: its matching equations, or in quad coordinates its quad equations",
    "is_octagon": "whether column c is that of an octagon",
    "is_quad_or_octagon": "whether column c is that of a quad or an octagon",
    "clash_list": "all clashing pairs of different columns of n tetrahedra, each with the smaller column first, in lexicographic order",
    "Clash": "a pair of columns at most one of which may be nonzero",
    "IsBefore": "the lexicographic order: x is less than y in the first column in which they differ",
    "positive_coefficient": "a coefficient if it is positive, and otherwise 0",
    "plus_part": "the positive part of a row at x: the sum of its positive coefficients times the entries of x",
    "negative_coefficient": "the absolute value of a coefficient if it is negative, and otherwise 0",
    "minus_part": "the negative part of a row at x: the sum of the absolute values of its negative coefficients times the entries of x",
    "IsZeroAt": "the row is 0 at x: its positive part equals its negative part",
    "IsSolution": "a solution: a vector of natural numbers, one for each column, at which each row is 0",
    "IsNonzero": "some entry is not 0",
    "IsExtreme": "an extreme solution: a nonzero solution of minimal support. Each nonzero solution whose support lies in that of x has the "
                 "same support. All solutions count, admissible or not",
    "IsAdmissible": "an admissible vector: for each of the pairs, x is 0 in at least one of the two columns",
    "IsPrimitive": "a primitive vector: the greatest common divisor of its entries is 1",
    "IsVertexSurface": "a vertex surface: an extreme solution that is admissible and primitive",
    "IsSurfaceList": "the surface list: it is strictly ascending in lexicographic order, all its members are vertex surfaces, and each vertex "
                     "surface is a member",
    "Grows": "either a contract sees the bytes of the sink before and after, and `more` was appended to them; or it sees none at either time",
    "ListsSurfaces": "the status is 0, and the surface list of the table's equations and clashing pairs was printed",
    "IsCutShort": "input failed (status 6), output failed (7), or memory ran out (8)",
    "AnswersSurfaces": "the three outcomes: the list was printed, a number that exceeds the limit was named, or the run was cut short",
}


class Explained(NamedTuple):
    """An explanation: the words and signs that it explains, and its text."""

    keys: Tuple[str, ...]
    text: str


def explained(keys: str, text: str) -> Explained:
    """An explanation of words or signs that are separated by spaces."""
    return Explained(tuple(keys.split()), text)


SIGNS = (
    explained("≡ ≢", "`a ≡ b`: a equals b; `a ≢ b`: it does not"),
    explained("× ,", "`P × Q`: P and Q; also the pairs (p, q), whose members are `x.0` and `x.1`. `(x : A) × Q`: there is an x in A with Q"),
    explained("⊎", "`P ⊎ Q`: P or Q"),
    explained("→", "`P → Q`: P implies Q; also the functions from P to Q. `(x : A) → Q`: Q for each x in A"),
    explained("↔", "`P ↔ Q`: P if and only if Q"),
    explained("⊤ ⊥", "`⊤`: what is true; `⊥`: what is false"),
    explained("λ", "`λ x. e`, `λ (x : A). e`: the function that maps x to e"),
    explained(": ( ) { }", "`x : A`: x is in A. `{A B : Type 0}`: A and B are any types, which are found from the other arguments; `{A}` names one"),
    explained("Type", "`Type 0`: the type of propositions, and of types such as `ℕ`"),
    explained("= abbrev unfoldable pub", "`abbrev`, `unfoldable`: a definition. Its first line has the type. The equations below, "
              "`name .. = ..`, say what it is, one for each form of its arguments. `pub`: other files may use it"),
    explained("record where", "`record R .. where`: a value of R consists of one value for each field, of the type after its colon. A proposition R "
              "holds if there are such values"),
    explained(". ;", "`r.f`: the field f of r. `record { f = a; g = b }`: the value with these fields; `record r { f = a }`: r with another field f"),
    explained("--", "`--`: a comment"),
    explained("== && || not", "`a == b`: whether a equals b, as a `Bool`; `&&`: and; `||`: or; `not`"),
    explained("if then else", "`if b then x else y`: x if b is true, and otherwise y"),
    explained("+ * / % <  ≤", "`+`, `*`, `<`, `≤`: of natural numbers, as usual; `/` and `%`: quotient and remainder"),
    explained("-ℤ", "`a -ℤ b`: the difference of integers"),
    explained("∣", "`d ∣ n`: d divides n"),
    explained("[] ∷ ++", "`[]`: the empty list; `x ∷ xs`: x followed by the list xs; `xs ++ ys`: xs followed by ys"),
)
LIBRARY = (
    explained("ℕ zero suc", "`ℕ`: the natural numbers, 0 among them, without a bound; `zero` is 0, `suc n` is n + 1"),
    explained("ℤ pos negsuc", "`ℤ`: the integers; `pos n` is n, `negsuc n` is -(n + 1)"),
    explained("Bool true false", "`Bool`: `true` or `false`"),
    explained("IsTrue", "`IsTrue b`: b is true"),
    explained("MatchBool", "`MatchBool b P Q`: P if b is true, and otherwise Q"),
    explained("nat_lt nat_le", "`nat_lt m n`: whether m < n; `nat_le m n`: whether m ≤ n"),
    explained("Option None Some", "`Option A`: `None`, or `Some a` with a in A"),
    explained("option_map option_and_then is_none", "`option_map f x`: `Some (f a)` if x is `Some a`; `option_and_then f x`: `f a` if x is "
              "`Some a`; both are `None` otherwise. `is_none x`: whether x is `None`"),
    explained("Ok", "`Ok a`: a value a, and no error"),
    explained("List length", "`List A`: the finite lists of members of A; `length xs`: the number of members of xs"),
    explained("slice_index slice_index_or", "`slice_index_or xs i d`: the member of xs with the index i, counted from 0, or d if there is none; "
              "`slice_index xs i`: the same for numbers, with d = 0"),
    explained("All AllPairs AllZip", "`All P xs`: each member of xs satisfies P. `AllPairs R xs`: each member of xs is related by R to each later "
              "one. `AllZip R xs ys`: xs and ys have the same length, and members with the same index are related by R"),
    explained("Contains", "`Contains xs x`: x is a member of xs"),
    explained("map flat_map", "`map f xs`: the list of the values of f on the members of xs; `flat_map f xs`: the lists `f x`, one after another"),
    explained("filter filter_map", "`filter p xs`: the members x of xs with `p x` true, in order; `filter_map f xs`: all y with `f x` equal to "
              "`Some y`, for the members x of xs in order"),
    explained("list_all list_any", "`list_all p xs`: whether `p x` is true for each member x of xs; `list_any p xs`: whether for some member"),
    explained("count_by sum_by", "`count_by p xs`: the number of members x of xs with `p x` true; `sum_by f xs`: the sum of `f x` over the members "
              "x of xs"),
    explained("range_with_len", "`range_with_len a n`: the n numbers a, a + 1, a + 2, .."),
    explained("position_or_len", "`position_or_len p xs`: the index of the first member with `p x` true, or the length of xs if there is none"),
    explained("reverse", "`reverse xs`: the members of xs in the opposite order"),
    explained("codes", "`codes \"..\"`: the bytes of a text"),
)
OTHERS = (
    explained("ensures all_surfaces", "`ensures all_surfaces { .. }`: whenever `run` returns, this holds"),
    explained("words result", "`words`: the arguments of the command line; `result`: the status that is returned"),
    explained("source sink old now new", "`source`, `sink`: the input and the output. `.old` is a value before the run, and `.new` after it; "
              "`.now` is one that does not change"),
    explained("S K left held", "`S.left source.old`: `Some` list of the bytes that the source has yet to deliver, or `None` if a contract sees no "
              "bytes of it; `K.held sink.new`: likewise, of the bytes that the sink has taken"),
    explained("IfSome", "`IfSome x P`: if x is `Some a`, then `P a`; if x is `None`, nothing is said"),
    explained("Request Surfaces accepted_request", "`accepted_request words ≡ Some (Request.Surfaces coords order most)`: the arguments are "
              "`surfaces` and options that ask for these coordinates, this order of the equations, and this limit for numbers"),
    explained("most_bytes", "`most_bytes`: 1,048,576"),
    explained("table_document", "`table_document bytes ≡ Ok rows`: the bytes give the gluing table `rows`, by its rows or by a signature; "
              "[FORMATS](FORMATS.md) has the grammar"),
    explained("Coords Standard Quad Octagon", "`Coords`: `Standard`, `Quad` or `Octagon`"),
    explained("Order", "`Order`: `given`, `short` or `zeros`, the values of `--order`"),
    explained("Status Done ReadFault WriteFault NoMemory", "`Status`: `Done` (0), `Large` (5), `ReadFault` (6), `WriteFault` (7), `NoMemory` (8), "
              "and three others"),
    explained("listing", "`listing (codes \"surfaces\") list`: the line `# surfaces N`, with N the length of the list, and a line `vec ..` for "
              "each vector"),
    explained("NamesLarge table_enumeration", "`NamesLarge (table_enumeration coords order most rows equations) status before now`: the status "
              "is 5, and the answer names the first number of a stated elimination step that exceeds `most`. `before` and `now` are the bytes "
              "that the sink has taken before and after the run. Another 150 lines define the steps (`cone_definitions`: Listings, "
              "Elimination)"),
)
EXPLAINED = (*SIGNS, *LIBRARY, *OTHERS)
WORD = re.compile(r"\"[^\"]*\"|[A-Za-zℕℤ_][\w'ℕℤ]*|\d+|-ℤ|--|\+\+|==|&&|\|\||\[\]|\S")


def ordered(definitions: Definitions, roots: Sequence[Key], seen: Set[Key]) -> Iterator[Item]:
    """The definitions that roots rest on, each after those that it uses, without those that were seen before."""
    for key in roots:
        item = definitions.get(key)
        if key in seen or item is None or key[2] in LEFT_OUT:
            continue
        seen.add(key)
        yield from ordered(definitions, list(definitions.uses(item)), seen)
        yield item


class Names:
    """The names under which definitions are shown. Two of one name differ: one is then shown as other files import it."""

    def __init__(self, definitions: Definitions, items: Sequence[Item]) -> None:
        self.definitions = definitions
        keys = [(item.crate, item.file, item.name) for item in items]
        twice = {key for key in keys if sum(other[2] == key[2] for other in keys) > 1}
        self.other: Dict[Key, str] = {}
        for item in items:
            for alias, key in definitions.names[item.crate, item.file].items.items():
                if key in twice and alias != key[2]:
                    self.other[key] = alias

    def shown(self, item: Item) -> str:
        """The text of a definition, without its comment, in which each definition has the name under which it is shown."""
        def name(found: "re.Match[str]") -> str:
            key = self.definitions.refers(item.crate, item.file, found[0])
            return self.other.get(key, found[0]) if key else found[0]

        return re.sub(r"(?<![\w.])[A-Za-z]\w*", name, item.body)

    def name(self, item: Item) -> str:
        """The name under which a definition is shown."""
        return self.other.get((item.crate, item.file, item.name), item.name)


def bound(text: str) -> Set[str]:
    """The variables that a definition binds: its arguments, its fields, and those of functions and of quantifiers."""
    found = set(re.findall(r"\.([A-Za-z_]\w*)", text)) | set(re.findall(r"(?m)^ +(?:pub )?(\w+) :", text))
    sides = [side.partition(" ")[2] for side in re.findall(r"(?m)^\w[^:]*? =(?= |$)", text)]
    for names in re.findall(r"[({]([\w' ]+)(?: : |\})", text) + re.findall(r"λ ([\w']+)\.", text) + sides:
        found |= set(re.findall(r"[A-Za-z_][\w']*", names))
    return found | set(re.findall(r"[{;\s](\w+) = ", text))


def unexplained(texts: Sequence[str], names: Sequence[str]) -> List[str]:
    """The words and signs of texts that are neither explained, nor the name of a definition on the page, nor bound in their text."""
    known = {key for one in EXPLAINED for key in one.keys} | set(names)
    found: Dict[str, None] = {}
    for text in texts:
        variables = bound(text)
        for word in WORD.findall(re.sub(r"--[^\n]*", "", text)):
            if not (word in known or word in variables or word.isdigit() or word.startswith('"')):
                found[word] = None
    return list(found)


def clause() -> str:
    """The clause of `run` that states the theorem, as it is in the source."""
    text = CLAUSES.read_text("utf8")
    start = text.index("    ensures all_surfaces {")
    end = text.index("\n    ensures", start + 1)
    return "\n".join(line[4:] for line in text[start:end].rstrip().split("\n"))


def main_function() -> str:
    """The function `main` of the program, as it is in the source."""
    text = MAIN.read_text("utf8")
    return text[text.index("fn main("):].rstrip()


def sentence(name: str, item: Item) -> str:
    """What the definition that is shown as `name` says, in words: that of SENTENCES, or its comment."""
    words = SENTENCES.get(name) or " ".join(line[2:].strip() for line in item.comment.split("\n"))
    return safe(words[:1].upper() + words[1:]) + "." * (words[-1:] not in (".", ""))


def shown_part(number: int, part: Part, items: Sequence[Item], names: Names) -> str:
    """A part of the page."""
    lines = [f"## {number}. {part.title}", part.text]
    for item in items:
        lines += [f"{sentence(names.name(item), item)} ({item.crate}: {item.file})", f"```\n{names.shown(item)}\n```"]
    return "\n\n".join(lines)


def listed(explanations: Sequence[Explained]) -> str:
    """Explanations as a list."""
    return "\n".join(f"- {one.text}" for one in explanations)


def faults(items: Sequence[Item], texts: Sequence[str], names: Sequence[str]) -> Iterator[str]:
    """What the page lacks, or has in vain: its definitions `items` are shown as `names`."""
    missing = unexplained(texts, names)
    if missing:
        yield f"no explanation of {', '.join(missing)}"
    silent = [name for name, item in zip(names, items) if not item.comment and name not in SENTENCES]
    if silent:
        yield f"no sentence on {', '.join(silent)}"
    unused = sorted(set(SENTENCES) - set(names))
    if unused:
        yield f"sentences on what is not on the page: {', '.join(unused)}"
    present = {word for text in texts for word in WORD.findall(text)}
    idle = [key for one in EXPLAINED for key in one.keys if key not in present]
    if idle:
        yield f"explanations of what is not on the page: {', '.join(idle)}"


def page() -> str:
    """The page."""
    definitions, seen = Definitions(), set()  # type: Tuple[Definitions, Set[Key]]
    parts = [(part, list(ordered(definitions, part.roots, seen))) for part in PARTS]
    items = [item for _, found in parts for item in found]
    names = Names(definitions, items)
    texts = [clause(), *map(names.shown, items)]
    found = list(faults(items, texts, [names.name(item) for item in items]))
    if found:
        sys.exit("\n".join(f"tools/reading.py: {fault}" for fault in found))
    lines = sum(len(item.body.split("\n")) for item in items)
    files = len({(item.crate, item.file) for item in items})
    other = ", ".join(f"`{alias}` is what {key[0]} calls `{key[2]}`" for key, alias in names.other.items())
    text = [INTRODUCTION.format(lines=lines, files=files, clause=clause(), other=other)]
    text += ["## Words and signs", "Signs:", listed(SIGNS), "Words of the kit's standard library:", listed(LIBRARY)]
    text += ["Words of the clause, and words that are left to other pages:", listed(OTHERS)]
    text += [shown_part(number, part, found, names) for number, (part, found) in enumerate(parts, 1)]
    return "\n\n".join([*text, END.format(main=main_function())]) + "\n"


INTRODUCTION = """# The theorem on `surfaces`, in full

This page has the clause of `run` that is the theorem, and each definition on which its table, its equations, its clashing pairs and its \
list rest: {lines} lines in {files} files. `tools/reading.py` writes it from the sources, and refuses a word or sign that is \
neither defined here nor explained. [CLAIMS](CLAIMS.md) says what else is proved, and what is trusted.

## The clause

```
{clause}
```

In words: let the command line ask for `surfaces` in the coordinates `coords`, with the order `order` of the equations and the limit \
`most`. Let a contract see the bytes of the input, the *source*. Let these be at most 1,048,576, and give the gluing table \
`rows`, by its rows or by a signature. Then one of three things holds (`AnswersSurfaces`, at the end of part 4):

- the list of vertex surfaces was written to the output, the *sink*, and the status is 0
- the first number of a stated elimination step that exceeds the limit `most` was named, and the status is 5
- input failed, output failed, or memory ran out, and the status is 6, 7 or 8

Each definition below has a sentence in words before it, then its crate and file: `crates/CRATE/specs/FILE.antt`. On this \
page {other}."""

END = """## The call

The program is this function, which has no contract. It calls `run`, and the status becomes the exit status. `StdSource` and `StdSink` \
are standard input and output, of which a contract sees no bytes. That they act like a source and a sink whose bytes it sees is trusted.

```
{main}
```"""


if __name__ == "__main__":
    sys.exit(written(PAGE, page(), "--check" in sys.argv[1:]))
