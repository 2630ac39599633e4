"""Rows that are spelled in other ways.

A line that is a JSON object without equal keys says the same with its keys turned round, with white space
between its tokens and with characters of its texts escaped. So each row has to be answered as it is.
"""

import json
import random
import re
from dataclasses import replace

from tests.support.lines import LINE_BYTES

SEED = 1
TOKEN = re.compile(r'"(?:[^"\\]|\\.)*"|[][{}:,]|[^][{}:,"\s]+')
UNIT = re.compile(r"\\u[0-9a-fA-F]{4}|\\.|.", re.DOTALL)
SPACES = ("", "", " ", "\t", " \r ")


def once(pairs):
    """An object, unless it has a key twice."""
    if len({key for key, _ in pairs}) < len(pairs):
        raise ValueError("a key twice")
    return dict(pairs)


def tokens_of(line):
    """The tokens of a line that is an object without equal keys, or None."""
    try:
        text = line.decode()
        is_object = isinstance(json.loads(text, object_pairs_hook=once), dict)
    except (ValueError, RecursionError):
        return None
    return TOKEN.findall(text) if is_object else None


def turned_round(tokens, _):
    """The members of the object in the other order."""
    members, depth = [[]], 0
    for token in tokens[1:-1]:
        depth += (token in "[{") - (token in "]}")
        if token == "," and not depth:
            members.append([])
        else:
            members[-1].append(token)
    inside = [it for member in reversed(members) for it in (",", *member)]
    return ["{", *inside[1:], "}"]


def spaced(tokens, chance):
    """With white space around tokens."""
    return [space for token in tokens for space in (chance.choice(SPACES), token, chance.choice(SPACES))]


def escaped(tokens, chance):
    """With characters of texts and keys written as escapes."""

    def unit(match):
        if match[0].startswith("\\") or chance.random() < 0.5:
            return match[0]
        bytes_of = match[0].encode("utf-16-be")
        return "".join(f"\\u{bytes_of[at]:02x}{bytes_of[at + 1]:02X}" for at in range(0, len(bytes_of), 2))

    return ['"' + UNIT.sub(unit, token[1:-1]) + '"' if token.startswith('"') else token for token in tokens]


WAYS = {
    "with its keys turned round": [turned_round],
    "with white space": [spaced],
    "with escapes": [escaped],
    "with all three": [turned_round, escaped, spaced],
}


def respelled(line, ways, chance):
    """The line as it is spelled in these ways, where it is no longer than a line may be and that makes it none."""
    tokens = tokens_of(line) if len(line) <= LINE_BYTES else None
    if tokens is None:
        return line
    for way in ways:
        tokens = way(tokens, chance)
    spelled = "".join(tokens).encode()
    return spelled if len(spelled) <= LINE_BYTES else line


def rows_respelled(rows):
    chance = random.Random(SEED)
    for row in rows:
        lines = row.given.split(b"\n")
        for name, ways in WAYS.items():
            given = b"\n".join(respelled(line, ways, chance) for line in lines)
            yield replace(row, name=f"{row.name} {name}", given=given)
