"""The words of command lines."""

from __future__ import annotations

import argparse
import os
import sys
from typing import Optional

NAME = os.path.basename(sys.argv[0])
"""The name that the program was called by."""


def parser_of(name: str, description: str, epilog: str, usage: Optional[str] = None) -> argparse.ArgumentParser:
    """A reader of words with `--help`, which the program shows itself; long options have to be written out."""
    parser = argparse.ArgumentParser(
        prog=name,
        usage=usage,
        description=description,
        epilog=epilog,
        formatter_class=argparse.RawDescriptionHelpFormatter,
        allow_abbrev=False,
        add_help=False,
    )
    parser.add_argument("-h", "--help", action="store_true", help="show this help and exit")
    return parser
