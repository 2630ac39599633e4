"""The tables of docs/PROTOCOL.md, which `tools/protocol.py` reads."""

from tools.protocol import *  # noqa: F401,F403
