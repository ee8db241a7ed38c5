"""The two programs that are compared and measured: the proved one, and the plain one, which is built on the way."""

import pathlib
import subprocess
import sys

HERE = pathlib.Path(__file__).resolve().parent
TOP = HERE.parent
WORK = TOP / "target" / "bench"


def build_plain():
    program = WORK / "plain"
    subprocess.run(["rustc", "-O", "--edition", "2021", "-o", program, HERE / "plain" / "main.rs"], check=True)
    return program


def add_to(parser):
    parser.add_argument("first", nargs="?", default=str(TOP / "crates" / "settle" / "out" / "settle"))
    parser.add_argument("second", nargs="?")


def asked_for(asked):
    """The two programs that the arguments name. Ends with status 2 where one is not there."""
    WORK.mkdir(parents=True, exist_ok=True)
    pair = (asked.first, asked.second or str(build_plain()))
    for program in pair:
        if not pathlib.Path(program).is_file():
            print(f"no program {program}: build it first, or name another", file=sys.stderr)
            sys.exit(2)
    return pair
