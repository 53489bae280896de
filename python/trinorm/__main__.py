"""python3 -m trinorm: a census on all processors, a comparison with Regina, pictures, sentences for a paper, and a check of the installation."""
from __future__ import annotations

import argparse
import signal
import sys
import threading
from typing import List, Optional

from . import certificates, citation, commands, crosscheck, pictures, selfcheck, versions
from .census import add_arguments, main as run_census
from .program import Error, Failed
from .standard_streams import faults_of_output, open_closed, read_input
from .workers import Terminated, end_as_by_keyboard


def draw_graph(given: argparse.Namespace) -> int:
    table = commands.table(read_input() if given.triangulation == "-" else given.triangulation)
    print(pictures.face_pairing_svg(table) if given.svg else pictures.face_pairing_dot(table), end="")
    return 0


def draw_growth(given: argparse.Namespace) -> int:
    try:
        with open(given.answers, encoding="utf8") as file:
            picture = pictures.growth_svg(pictures.growth_points(file))
    except OSError as fault:
        raise Failed(f"{given.answers}: {fault.strerror}") from None
    except UnicodeDecodeError:
        raise Failed(f"{given.answers} is not UTF-8") from None
    except ValueError as fault:
        raise Failed(f"{given.answers}: {fault}") from None
    print(picture, end="")
    return 0


def reader_of_words() -> argparse.ArgumentParser:
    reader = argparse.ArgumentParser(prog="python3 -m trinorm", description=__doc__,
                                     formatter_class=argparse.RawDescriptionHelpFormatter)
    version_text = f"trinorm {versions.version()}\n{versions.build()}"
    reader.add_argument("--version", action="version", version=version_text.rstrip())
    kinds = reader.add_subparsers(dest="what", required=True)

    one = kinds.add_parser("census", help="run a command on each signature of a file, and write a JSON line for each",
                           description="If it is started again with the same arguments, it resumes. "
                                       "Exit status 1: some runs failed.")
    add_arguments(one)
    one.set_defaults(main=run_census)

    one = kinds.add_parser("crosscheck", help="list vertex surfaces with trinorm and Regina, and print the differences",
                           description="Exit status 1: lists differ, or a triangulation was refused.")
    crosscheck.add_arguments(one)
    one.set_defaults(main=crosscheck.main)

    one = kinds.add_parser("certify", help="find moves that show that a triangulation is a 3-sphere, and print them as an input of `check`",
                           description="Exit status 1: no moves were found. This does not mean that it is not a 3-sphere.")
    certificates.add_arguments(one)
    one.set_defaults(main=certificates.main)

    one = kinds.add_parser("cite", help="print the sentences by which a paper cites a list, with version, commit, kit and checksum",
                           description="The sentences are those of CLAIMS, filled in for this installation.")
    citation.add_arguments(one)
    one.set_defaults(main=citation.main)

    one = kinds.add_parser("graph", help="print the face-pairing graph of a triangulation, as DOT or SVG")
    one.add_argument("triangulation", metavar="SIGNATURE",
                     help="a signature, or - for a gluing table on standard input")
    one.add_argument("--svg", action="store_true")
    one.set_defaults(main=draw_graph)

    one = kinds.add_parser("growth", help="print an SVG picture of how lists grow, from the results of a census")
    one.add_argument("answers", metavar="ANSWERS.jsonl")
    one.set_defaults(main=draw_growth)

    one = kinds.add_parser("selfcheck", help="test this installation by stored examples, and print what to report",
                           description="It takes a few seconds. Exit status 1: something differs.")
    one.set_defaults(main=selfcheck.main)
    return reader


def main(words: Optional[List[str]] = None) -> int:
    open_closed()
    in_main_thread = threading.current_thread() is threading.main_thread()
    before = signal.signal(signal.SIGTERM, end_as_by_keyboard) if in_main_thread else None
    try:
        with faults_of_output():
            given = reader_of_words().parse_args(words)
            return int(given.main(given))
    except Error as wrong:
        print(f"trinorm: {wrong}", file=sys.stderr)
        return 3
    except Terminated:
        return 128 + signal.SIGTERM
    except KeyboardInterrupt:
        return 128 + signal.SIGINT
    finally:
        if in_main_thread:
            signal.signal(signal.SIGTERM, before)


if __name__ == "__main__":
    sys.exit(main())
