"""A shorter record without the commands of sessions that are over and on which no other session depends.

A session is over if its last command was `reset`. `metad --slice NAME` writes the commands that can affect what a session NAME
receives: its own, and those of each session that it had joined, from the first one up to the last that could reach it. So the
slices of all sessions that are not over have all that can affect these sessions from now on.
"""

from __future__ import annotations

import json
import subprocess
from collections import defaultdict
from typing import DefaultDict, Dict, Iterable, List, Optional, Sequence

LIVING_MOST = 20
"""The most sessions whose slices are made, since each takes as long as bringing a server to the state of the record."""
SHORTER = 2
"""So many times shorter the record has to get, since it is not tried again before it has twice the length that it has then."""


def command_in(line: bytes) -> Dict[str, object]:
    """The command of a session that a line is, or an empty one."""
    try:
        found = json.loads(line)
    except (ValueError, RecursionError):
        return {}
    return found if isinstance(found, dict) and isinstance(found.get("session"), str) else {}


def by_session(lines: Iterable[bytes]) -> DefaultDict[str, List[bytes]]:
    """The lines of each session."""
    found: DefaultDict[str, List[bytes]] = defaultdict(list)
    for line in lines:
        command = command_in(line)
        if command:
            found[str(command["session"])].append(line)
    return found


def is_over(lines: Sequence[bytes]) -> bool:
    """Whether the last of a session's commands resets it."""
    command = command_in(lines[-1])
    return set(command) == {"do", "session"} and command["do"] == "reset"


def slice_of(words: Sequence[str], given: bytes, name: str) -> Optional[List[bytes]]:
    """The commands that can affect what a session receives, if the server finds them."""
    ran = subprocess.run([*words, "--slice", name], input=given, stdout=subprocess.PIPE, stderr=subprocess.DEVNULL)
    return None if ran.returncode else ran.stdout.splitlines()


def needed(words: Sequence[str], lines: Sequence[bytes], living: Sequence[str]) -> Optional[Dict[str, List[bytes]]]:
    """The commands of each session that can affect what the living ones receive: each time the first ones of the session."""
    given = b"".join(line + b"\n" for line in lines)
    found: Dict[str, List[bytes]] = {}
    for name in living:
        part = slice_of(words, given, name)
        if part is None:
            return None
        for session, own in by_session(part).items():
            found[session] = max(found.get(session, []), own, key=len)
    return found


def without_ended(words: Sequence[str], lines: Sequence[bytes]) -> Optional[List[bytes]]:
    """The commands that are left, if they are much fewer; a session that is over is reset at their end if it has any of them."""
    whole = by_session(lines)
    living = [name for name, own in whole.items() if not is_over(own)]
    if len(living) in (0, len(whole)) or len(living) > LIVING_MOST:
        return None
    wanted = needed(words, lines, living)
    if wanted is None:
        return None
    kept, done = [], dict.fromkeys(wanted, 0)
    for line in lines:
        name = str(command_in(line).get("session", ""))
        if name in wanted and done[name] < len(wanted[name]) and line == wanted[name][done[name]]:
            done[name] += 1
            kept.append(line)
    kept += [whole[name][-1] for name, own in wanted.items() if name not in living and own[-1] != whole[name][-1]]
    is_complete = all(done[name] == len(own) for name, own in wanted.items())
    return kept if is_complete and SHORTER * sum(map(len, kept)) <= sum(map(len, lines)) else None
