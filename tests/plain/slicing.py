"""The slice of an input for a session: the commands that the session's output depends on."""

from typing import NamedTuple

from .lines import command_of


class Note(NamedTuple):
    """A command of an input: the place of its line, its session, and whose joins name that session just before."""

    place: int
    session: str
    joined_by: frozenset


def notes_of(server, lines):
    """The commands among some lines, which the server does in their order."""
    notes = []
    for place, line in enumerate(lines):
        command = command_of(line)
        if command is not None:
            notes.append(Note(place, command["session"], server.joined_by(command["session"])))
            server.step(command)
    return notes


def kept(notes, name):
    """The commands that a session's slice keeps, found from the last one to the first: those of the session, and those of
    any other one that is kept later in the input or is joined just then by one of these."""
    members, found = {name}, []
    for note in reversed(notes):
        if note.session in members or note.joined_by & members:
            members.add(note.session)
            found.append(note)
    return found[::-1]


def slice_of(lines, notes, name):
    """The lines of a session's slice as they are in the input, each with its end."""
    return b"".join(lines[note.place] + b"\n" for note in kept(notes, name))
