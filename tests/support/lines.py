"""Lines of JSON as the program writes them."""

import io
import json

from .limits import LINE_BYTES

BLANK = b" \t\r"


def text_of(value):
    """A value in one line, without white space and with its keys in order."""
    return json.dumps(value, separators=(",", ":"), sort_keys=True, ensure_ascii=False)


def lines_of(values, **more):
    """Objects in a line each, with further members where they are given."""
    return "".join(text_of({**value, **more}) + "\n" for value in values).encode()


def lines_in(text):
    """The lines of a text with their ends, which are LF alone."""
    return io.BytesIO(text).readlines()


def is_blank(line):
    """Whether a line is one that is passed over."""
    return len(line.rstrip(b"\n")) <= LINE_BYTES and not line.strip(BLANK + b"\n")
