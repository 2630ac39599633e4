"""The difference between an output and the expected one, and the input line that it answers."""

import difflib

from .lines import is_blank, lines_in

BEFORE, BEHIND = 3, 60  # lines that are compared around the first difference
SHOWN = 20  # lines of a difference, and of an input, that are shown
WIDTH = 300  # characters of a line that are shown
LAST = (b'{"reply":', b'{"error":')  # how the last line of an answer begins


def parting(one, other):
    """Where two sequences part first."""
    pairs = zip(one, other)
    return next((at for at, (mine, its) in enumerate(pairs) if mine != its), min(len(one), len(other)))


def readable(line):
    """A line as text, with escapes for what cannot be seen and a word where it has no end."""
    text = line.removesuffix(b"\n").decode(errors="backslashreplace")
    text = "".join(it if it.isprintable() else ascii(it)[1:-1] for it in text)
    return text if line.endswith(b"\n") else f"{text} (without LF)"


def cut(text, column=0):
    """The part of a long text around a column."""
    first = max(0, column - WIDTH // 3) if column > WIDTH // 2 else 0
    part = text[first : first + WIDTH]
    return f"{'..' if first else ''}{part}{'..' if first + WIDTH < len(text) else ''}"


def difference(wanted, came):
    """The lines around the first difference of two texts, or None: those that are wanted with `-` in front, and those
    that came with `+`."""
    if wanted == came:
        return None
    wanted, came = lines_in(wanted), lines_in(came)
    at = parting(wanted, came)
    window = slice(max(0, at - BEFORE), at + BEHIND)
    sides = [list(map(readable, lines[window])) for lines in (wanted, came)]
    first = [readable(lines[at]) if at < len(lines) else "" for lines in (wanted, came)]
    diff = list(difflib.unified_diff(*sides, lineterm="", n=BEFORE + BEHIND))[3:]
    shown = [f"    {line[0]} {cut(line[1:], parting(*first))}" for line in diff[:SHOWN]]
    return "\n".join([f"line {at + 1} differs (- wanted, + came):", *shown, *(["    .."] if len(diff) > SHOWN else [])])


def line_asked(given, wanted, came):
    """The number of the line of input whose answer is the first that differs."""
    wanted, came = lines_in(wanted), lines_in(came)
    answered = sum(line.startswith(LAST) for line in wanted[: parting(wanted, came)])
    asked = [number for number, line in enumerate(lines_in(given), 1) if not is_blank(line)]
    return asked[answered] if answered < len(asked) else len(lines_in(given))


def shown_input(given, last=None):
    """The lines of an input up to this one; only the last of them are shown."""
    lines = lines_in(given)
    last = len(lines) if last is None else last
    if not lines:
        return "its input is empty"
    first = max(0, last - SHOWN)
    shown = [f"    > {cut(readable(line))}" for line in lines[first:last]]
    return "\n".join([f"its input, lines {first + 1} to {last} of {len(lines)}:", *shown])
