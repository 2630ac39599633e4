"""The tables of docs/PROTOCOL.md: the commands with their keys, replies and effects, the codes, the limits, the exit statuses.

They are the source of every list of these: `tools/lists.py` writes such lists, and the tests compare others.
"""

from __future__ import annotations

import re
from pathlib import Path
from typing import Dict, Iterator, List, NamedTuple, Set, Tuple

ROOT = Path(__file__).resolve().parent.parent
PROTOCOL = ROOT / "docs" / "PROTOCOL.md"
KEY = re.compile(r"(?<!for )(\[?)`(\w+)`")
NAMED = re.compile(r"`(\w+)`")
LINK = re.compile(r",? ?see \[[^]]*\]\([^)]*\)|\[([^]]*)\]\([^)]*\)")
EFFECTS = ("reads", "changes", "calls")
KIND_OF_KEY = {
    **dict.fromkeys(("object", "parent", "sender", "receiver", "context", "connection"), "number"),
    **dict.fromkeys(("signal", "method"), "signature"),
    **dict.fromkeys(("class", "property", "functor", "name", "from"), "name"),
    **dict.fromkeys(("on", "unique", "single"), "truth"),
    "type": "way",
}  # of keys about which the table says nothing else
KIND_OF_TEXT = {
    **dict.fromkeys(("a name", "names"), "name"),
    **dict.fromkeys(("a boolean", "booleans"), "truth"),
    "any text": "text",
    "any JSON": "value",
    "an array": "values",
    "an array of texts": "texts",
    "an object number or null": "number or null",
    "a connection number": "number",
    '`{"object":N,"property":"p"}`': "place",
    '-1, 0 or 1, with the type `"queued"` only': "priority",
}  # what the table says of a key
KIND_OF_REPLY = (
    (r"whether .*|`true`; `false` .*", "truth"),
    (r"`true`", "true"),
    (r"the (object|connection)'s number", "number"),
    (r"how many .*", "count"),
    (r"the (parent's )?number.*null.*", "number or null"),
    (r"an array of object numbers", "numbers"),
    (r"an array of names", "names"),
    (r"the property's value.*", "value"),
    (r'`"BindingLoop"`, .* null.*', "error or null"),
    (r"the expression .* null", "expression or null"),
    (r"counts of events", "spun"),
    (r"the counts of the session", "status"),
    (r"the methods and properties of the class", "meta"),
    (r"the object's class, parent and counts", "object"),
    (r"the members of the class", "class"),
    (r"an array of the properties", "properties"),
    (r"an array of .*connections", "connections"),
    (r"an array of .*bound properties", "places"),
    (r"an array of publications", "publications"),
    (r"an array of joins", "joins"),
    (r"an array of the functors", "functors"),
)  # the first that fits decides


class Unread(IndexError):
    """Why a table cannot be read, as a text for people."""


class Key(NamedTuple):
    """A key of a command, and what it holds."""

    name: str
    kind: str
    is_optional: bool


class Form(NamedTuple):
    """A row of the table of commands, with the codes for which it is refused."""

    word: str
    keys: Tuple[Key, ...]
    codes: Tuple[str, ...]
    reply: str
    kind: str

    def required(self) -> List[str]:
        """The keys that have to be there."""
        return [key.name for key in self.keys if not key.is_optional]


class Command(NamedTuple):
    """A command with its forms; most commands have one form."""

    word: str
    forms: Tuple[Form, ...]
    does: str
    effect: str


def text() -> str:
    """The page."""
    return PROTOCOL.read_text()


def section(heading: str) -> str:
    """What the page has below a heading of the second level, up to the next one."""
    parts = text().split(f"\n## {heading}\n", 1)
    if len(parts) < 2:
        raise Unread(f"docs/PROTOCOL.md has no section {heading}")
    return parts[1].split("\n## ", 1)[0]


def table(heading: str, columns: int) -> List[List[str]]:
    """The rows of the tables below a heading that have so many columns, without the first two, which are the head."""
    rows = [line.strip("|").split("|") for line in section(heading).splitlines() if line.startswith("|")]
    return [[cell.strip() for cell in row] for row in rows if len(row) == columns][2:]


def plain(cell: str) -> str:
    """A cell without the marks of code."""
    return cell.replace("`", "")


def unlinked(cell: str) -> str:
    """A cell with the texts of its links, and without those that only say where to look."""
    return LINK.sub(lambda found: found[1] or "", cell).strip()


def codes() -> Dict[str, str]:
    """Each code with its meaning."""
    return {plain(code): meaning for code, meaning, _ in table("Codes", 3)}


def advice() -> Dict[str, str]:
    """What to do about each code."""
    return {plain(code): unlinked(said) for code, _, said in table("Codes", 3)}


def limits() -> List[Tuple[str, str]]:
    """What is limited, and to how much."""
    return [(what, plain(most)) for what, most in table("Limits", 2)]


def limit(what: str) -> int:
    """The number of a limit."""
    found = dict(limits()).get(what, "").replace(",", "")
    if not found.isdigit():
        raise Unread(f"docs/PROTOCOL.md has no limit: {what}")
    return int(found)


def statuses() -> Dict[str, str]:
    """Each exit status, with when it is."""
    return {status: plain(when) for status, when, _ in table("The program's end", 3)}


def keys_of(cell: str) -> Tuple[Set[str], Set[str]]:
    """The keys of a command: those that have to be there, and those in brackets."""
    found = KEY.findall(cell)
    return {name for bracket, name in found if not bracket}, {name for bracket, name in found if bracket}


def refusals() -> Dict[Tuple[str, str], str]:
    """What the page says about refusals, by the command's word and, where its row names one, a key of the form.

    A row is for one command, or for several with commas between them."""
    named = ((NAMED.findall(part), refused) for what, refused in table("Commands", 2) for part in what.split(", "))
    return {(words[0], words[1] if len(words) > 1 else ""): refused for words, refused in named}


def rows() -> List[List[str]]:
    """The rows of the commands: the word, the keys, the refusals, the reply, what it does, and its effect."""
    refused = refusals()
    found = []
    for word, keys, does, effect, reply in table("Commands", 5):
        required = (*sorted(keys_of(keys)[0]), "")
        said = next((refused[plain(word), key] for key in required if (plain(word), key) in refused), "")
        found.append([word, keys, said, reply, does, effect])
    return found


def commands() -> Iterator[Tuple[str, Set[str], Set[str], List[str]]]:
    """The rows of the commands: the word, the keys and the codes for which it is refused."""
    for word, keys, refused, *_ in rows():
        yield (plain(word), *keys_of(keys), re.findall(r"`(E\d\d)`", refused))


def forms() -> Dict[str, List[Tuple[List[str], List[str]]]]:
    """The keys of each command as its rows have them, in their order: those that have to be there, and those in brackets."""
    found: Dict[str, List[Tuple[List[str], List[str]]]] = {}
    for word, keys, *_ in rows():
        named = KEY.findall(keys)
        form = [name for bracket, name in named if not bracket], [name for bracket, name in named if bracket]
        found.setdefault(plain(word), []).append(form)
    return found


def keys_in(cell: str) -> Iterator[Key]:
    """The keys of a row with what each of them holds."""
    for part in cell.split("; "):
        found = list(KEY.finditer(part))
        said = part[found[-1].end() :].lstrip("], ") if found else ""
        for it in found:
            kind = KIND_OF_TEXT.get(said) or KIND_OF_KEY.get(it[2])
            if kind is None:
                raise Unread(f"tools/protocol.py does not know what the key {it[2]} holds: {part}")
            yield Key(it[2], kind, bool(it[1]))


def kind_of_reply(cell: str) -> str:
    """The kind of a reply."""
    for pattern, kind in KIND_OF_REPLY:
        if re.fullmatch(pattern, cell):
            return kind
    raise Unread(f"tools/protocol.py does not know what this reply is: {cell}")


def form_of(row: List[str]) -> Form:
    """A row of the commands: its word, keys, refusals and reply."""
    word, keys, refused, reply = row[:4]
    codes = tuple(dict.fromkeys(re.findall(r"`(E\d\d)`", refused)))
    return Form(plain(word), tuple(keys_in(keys)), codes, unlinked(reply), kind_of_reply(unlinked(reply)))


def all_commands() -> List[Command]:
    """The commands with all that the page says of them, in its order."""
    said: Dict[str, Tuple[str, str]] = {}
    found: Dict[str, List[Form]] = {}
    for row in rows():
        form = form_of(row)
        found.setdefault(form.word, []).append(form)
        said.setdefault(form.word, (row[4], row[5]))
    strange = sorted({word for word, _ in refusals()} - found.keys() | {word for word, it in said.items() if it[1] not in EFFECTS})
    if not found or strange:
        raise Unread(f"docs/PROTOCOL.md has refusals of unknown commands, or commands of unknown effect: {', '.join(strange)}")
    return [Command(word, tuple(forms), *said[word]) for word, forms in found.items()]


def word_that_replies(kind: str) -> str:
    """The word of the first command whose replies are of a kind."""
    return next(it.word for it in all_commands() if it.forms[0].kind == kind)
