"""Everything in `clients` and the examples can be run by Python 3.8."""

import ast

from tests.support.cases import Cases
from tests.support.program import ROOT

OLDEST = (3, 8)
FIRST = b"#!/usr/bin/env python3"
ANNOTATED = (ast.FunctionDef, ast.AsyncFunctionDef)


def programs():
    """The files of Python, each with its text."""
    for path in sorted([*(ROOT / "clients").rglob("*"), *(ROOT / "examples").rglob("*")]):
        if path.suffix == ".py" or path.is_file() and path.read_bytes().startswith(FIRST):
            yield str(path.relative_to(ROOT)), path.read_text()


def has_annotations(tree):
    """Whether something has a type annotation."""
    for node in ast.walk(tree):
        if isinstance(node, ast.AnnAssign) or isinstance(node, ast.arg) and node.annotation:
            return True
        if isinstance(node, ANNOTATED) and node.returns:
            return True
    return False


def fault_of(text):
    """What that version of Python cannot read or compute, or None."""
    try:
        tree = ast.parse(text, feature_version=OLDEST)
    except SyntaxError as error:
        return str(error)
    future = {it.name for node in tree.body if isinstance(node, ast.ImportFrom) and node.module == "__future__" for it in node.names}
    if has_annotations(tree) and "annotations" not in future:
        return "types are computed when it is run, and some do not exist in that version"
    return None


class Versions(Cases):
    """The syntax, and types that are not computed."""

    def test_oldest(self):
        """Each file can be read, and where it says types they are left uncomputed."""
        self.check_each(programs(), fault_of, at_once=1)  # Python 3.11 cannot parse in threads side by side
