"""Writes aspdrupe/_derived.py.

It has the constants and declarations of bindings/c/aspdrupe.h, and the questions of bindings/rust/src/questions.rs. Run
it where one of these changes: `python3 bindings/python/derive.py`. A test holds the file to what is written here.
"""
from __future__ import annotations

import re
from pathlib import Path
from typing import List

HERE = Path(__file__).resolve().parent
HEADER = HERE.parent / "c" / "aspdrupe.h"
QUESTIONS = HERE.parent / "rust" / "src" / "questions.rs"
DERIVED = HERE / "aspdrupe" / "_derived.py"

FRONT = '''"""What the header for C and the Rust crate say. Written by bindings/python/derive.py; not edited by hand."""
from __future__ import annotations

from typing import Dict, Tuple

from ._question import Question

'''


def constants(header: str) -> List[str]:
    """The numbers that the header defines."""
    found = re.findall(r"^#define ASPDRUPE_(\w+) (\d+)$", header, re.MULTILINE)
    return [f"{name} = {int(number):_}\n" for name, number in found]


def parameters(name: str, declared: str) -> List[str]:
    """The parameters of a function: a pointer stands for itself and its length, which the header has right after it."""
    found: List[str] = []
    for parameter in re.split(r",\s*", declared):
        if not parameter.startswith("size_t "):
            found.append(parameter)
        elif not found or "*" not in found[-1] or parameter != f"size_t {found[-1].split('*')[1]}_len":
            raise ValueError(f"{name}: `{parameter}` is not the length of what stands before it")
    return found


def functions(header: str) -> List[str]:
    """The functions that the header declares, each with its parameters."""
    found = re.findall(r"^uint32_t aspdrupe_(\w+)\(([^)]*)\);$", header, re.MULTILINE)
    lines = ["\n# The parameters of each function; each pointer has its length after it.\n"]
    lines.append("FUNCTIONS: Dict[str, Tuple[str, ...]] = {\n")
    for name, declared in found:
        listed = "".join(f'        "{parameter}",\n' for parameter in parameters(name, declared))
        lines.append(f'    "{name}": (\n{listed}    ),\n')
    return [*lines, "}\n"]


CASE = r'(\w+) = (\d+), ("[^"\\]*"),\s*("[^"\\]*");'


def question_class(about: str, name: str, cases: str) -> List[str]:
    """An enumeration of questions."""
    doc = re.sub(r"\s*/// ?", " ", about).strip()
    found = re.findall(CASE, cases)
    if not found or re.sub(CASE, "", cases).strip():
        raise ValueError(f"{name}: not all of its lines are questions")
    lines = [f'\n\nclass {name}(Question):\n    """{doc}"""\n\n']
    for case, number, text, mend in found:
        member = re.sub(r"(?<=[a-z])(?=[A-Z])", "_", case).upper()
        lines.append(f"    {member} = (\n        {number},\n        {text},\n        {mend},\n    )\n")
    return lines


def questions(source: str) -> List[str]:
    """The questions of every service."""
    block = r'^questions! \{\n((?:    ///[^\n]*\n)+)    (\w+), "[^"]*" \{\n(.*?)^    \}\n\}\n'
    found = re.findall(block, source, re.MULTILINE | re.DOTALL)
    if len(found) != len(re.findall(r"^questions! \{$", source, re.MULTILINE)):
        raise ValueError("questions.rs is not of the form that is read here")
    return [line for about, name, cases in found for line in question_class(about, name, cases)]


def derived() -> str:
    """The text of the file."""
    header = HEADER.read_text()
    return FRONT + "".join(constants(header) + functions(header) + questions(QUESTIONS.read_text()))


if __name__ == "__main__":
    DERIVED.write_text(derived())
