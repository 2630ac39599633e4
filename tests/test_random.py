"""Random lines and sessions, the same in every run: the built program is compared with the plain one, which works
out what is wanted while it makes what is given."""

import json
import os
import unittest
from collections import Counter, defaultdict
from concurrent.futures import ProcessPoolExecutor
from dataclasses import dataclass, field, replace
from functools import cache, partial
from tempfile import TemporaryDirectory

from .generators import bindings, chance, mixed, reads, sessions, signals, trees
from .plain.bindings import BINDING_LOOP, EVALUATION_ERROR
from .plain.classes import Classes
from .plain.lines import answer, server_with
from .plain.session import Session
from .plain.world import Server, told_alone
from .support.by_chance import row_with_classes, session_by_chance
from .support.cases import CASE, ProgramCases
from .support.differences import difference, shown_input
from .support.lines import lines_of, text_of
from .support.program import Row
from .support.seeds import SEED

LONG_SESSIONS = 50
LONG_COMMANDS = 1_000_000
LONG_TURNS = 20
LONG_SECONDS = 3_600


@dataclass
class Tried:
    """What is wrong with a case, or None, and what it had to show."""

    fault: str | None
    shown: Counter = field(default_factory=Counter)


def all_shown(tried):
    """What some cases had to show together, also where that is nothing."""
    shown = Counter()
    for it in tried:
        shown.update(it.shown)
    return shown


def shares(words):
    """How many of these words of commands there are, and how many are of commands that only tell what is there."""
    words = list(words)
    return Counter({"commands": len(words), "reading commands": sum(word in reads.READS for word in words)})


def check_share(test, shown):
    """Fails where too few of the random commands only tell what is there, unless cases were picked by name."""
    share = shown["reading commands"] / shown["commands"]
    test.assertTrue(CASE or share >= reads.LEAST_SHARE, f"only {share:.3f} of {shown['commands']:,} commands only tell what is there")


def words_in(lines):
    """The words of the commands in lines, where these are objects with a word."""
    for line in lines:
        try:
            given = json.loads(line)
        except (ValueError, RecursionError):
            continue
        if isinstance(given, dict) and isinstance(given.get("do"), str):
            yield given["do"]


class Lines(ProgramCases):
    """Random lines, in form and out of it."""

    def test_lines(self):
        """200,000 lines are answered alike, byte for byte."""
        lines, server = chance.lines_of(chance.Chance(str(SEED))), server_with(turns=chance.TURNS)
        wanted = b"".join(answer(server, line) for line in lines)
        words = (b'{"reply":', b'"call":', b'"call":"clamp"', b'"call":"count"', b'"warning":"BindingLoop"')
        replies, calls, clamped, counted, loops = map(wanted.count, words)
        functors = clamped + counted
        self.assertGreaterEqual(replies, chance.LINES // 10, "there are too few replies")
        self.assertGreaterEqual(calls, chance.LINES // 200, "there are too few calls")
        self.assertGreaterEqual(functors, chance.LINES // 40_000, "there are too few calls of functors")
        self.assertGreaterEqual(loops, chance.LINES // 40_000, "there are too few loops of bindings")
        check_share(self, shares(words_in(lines)))
        self.check_rows([Row(f"random lines, {SEED}", b"\n".join(lines), wanted, words=("--turns", str(chance.TURNS)))])
        self.tell(f"lines: {len(lines):,}, replies: {replies:,}, calls: {calls:,}, of functors: {functors:,}, loops: {loops:,}")


def told_by_plain(commands, classes):
    """What the plain program tells to the commands of sessions on one server."""
    server = Server(classes)
    return [line for command in commands for line in server.step(command)]


def tree_fault(program, commands):
    """What is wrong with the answers to commands of sessions with trees, or None."""
    row = Row("trees", lines_of(commands), lines_of(told_by_plain(commands, trees.CLASSES_THERE)))
    return row.fault(row.run(program))


class Trees(ProgramCases):
    """Sessions with trees of objects."""

    def test_share(self):
        """A fifth of the random commands only tell what is there."""
        check_share(self, shares(it["do"] for seed in range(trees.CHANCES) for it in trees.by_chance(seed)))

    def test_trees(self):
        """Deep and wide trees that are deleted, and small random ones."""
        self.check_each(trees.sessions(), partial(tree_fault, self.program), workers=ProcessPoolExecutor)


def reads_in(commands, answers):
    """How often each command that only reads was replied to."""
    replied = Counter(command["do"] for command, told in zip(commands, answers) if "reply" in told[-1])
    return {f"replies to {word}": replied[word] for word in reads.READS}


def shown_by_signals(commands, answers):
    """What a session has to show: calls, among them those of functors and those that report what a command had set,
    events that were taken, and replies to what only reads."""
    lines = [line for told in answers for line in told]
    return Counter({
        "calls": signals.calls_in(lines),
        "calls of functors": signals.functors_in(lines),
        "events": signals.events_in(lines),
        "calls that report changes": signals.changes_in(commands, answers),
        **reads_in(commands, answers),
        **shares(it["do"] for it in commands),
    })


def shown_by_bindings(commands, answers):
    """What a session with bindings has to show: calls and errors that bindings and ends of groups report, errors that come
    of what is set, deleted and called, and errors that are asked for."""
    told = defaultdict(list)
    for command, lines in zip(commands, answers):
        told[command["do"]] += lines
    errors = {word: signals.errors_in(told[word]) for word in ("bind", "set", "delete", "invoke", "spin", "end")}
    asked = Counter(line.get("reply") for line in told[bindings.ERROR_OF])
    return Counter({
        "bindings": sum(line.get("reply") is True for line in told["bind"]),
        "groups": sum("reply" in line for line in told["begin"]),
        **{f"calls by {word}": signals.calls_in(told[word]) for word in ("bind", "end")},
        **{f"errors by {word}": number for word, number in errors.items()},
        **{f"asked for {error}": asked[error] for error in (BINDING_LOOP, EVALUATION_ERROR)},
        **shares(it["do"] for it in commands),
    })


def shown_by_watching(commands, answers):
    """What a session whose bindings are asked for has to show: errors of each kind, and values."""
    asked = Counter()
    for command, told in zip(commands, answers):
        if command["do"] in bindings.Watching.asked:
            reply = told[-1].get("reply")
            asked[f"asked for {reply}" if isinstance(reply, str) and command["do"] == bindings.ERROR_OF else "other answers"] += 1
    return Counter({what: asked[what] for what in (f"asked for {BINDING_LOOP}", f"asked for {EVALUATION_ERROR}", "other answers")})


def try_session(kind, shown_by, program, seed, number=signals.COMMANDS):
    """Tries a session of so many commands that is made by a kind of chance."""
    with session_by_chance(kind(seed), seed, number) as made:
        fault = made.row.fault(made.row.run(program))
    return Tried(fault and f"{fault}\nits class file: {text_of({'classes': made.declared})}", shown_by(made.commands, made.answers))


class OneSession(ProgramCases):
    """Sessions with random classes, bodies and commands, each with few turns."""

    def check_sessions(self, seeds, kind, shown_by, needed=None, **how):
        """Tries so many sessions, which together have to show all that is needed, where they are not cases by name."""
        cases = ((f"random, {seed}", seed) for seed in range(SEED, SEED + seeds))
        tried = self.check_each(cases, partial(try_session, kind, shown_by, self.program, **how), lambda it: it.fault, ProcessPoolExecutor)
        shown = all_shown(tried)
        self.tell(", ".join(f"{what}: {number:,}" for what, number in shown.items()))
        lacking = [what for what in needed or shown if not shown[what]]
        self.assertEqual([] if CASE else lacking, [], "no session shows this")
        return shown

    def test_signals(self):
        """Signals, slots, functors, events and properties."""
        needed = ("calls of functors", "events", "calls that report changes", *(f"replies to {word}" for word in reads.READS))
        check_share(self, self.check_sessions(signals.SESSIONS, signals.Chance, shown_by_signals, needed))

    def test_bindings(self):
        """Bindings and groups, in addition to signals."""
        check_share(self, self.check_sessions(bindings.SESSIONS, bindings.Chance, shown_by_bindings))

    def test_watched_bindings(self):
        """Bindings whose errors and values are all asked for after each command."""
        self.check_sessions(bindings.WATCHED_SESSIONS, bindings.Watching, shown_by_watching, number=bindings.WATCHED_COMMANDS)


def by_session(lines):
    """The lines of each session by its name."""
    found = defaultdict(list)
    for line in lines:
        found[line["session"]].append(line)
    return found


def lines_by_session(text):
    """What the program wrote to each session, by its name."""
    found = defaultdict(bytes)
    for line in text.splitlines(keepends=True):
        found[json.loads(line)["session"]] += line
    return found


@dataclass
class Part:
    """A part of a run's commands that has to tell one session what the whole run tells it."""

    session: str
    what: str
    commands: list

    def given(self):
        return lines_of(self.commands)


def parts_of(run):
    """The parts of a run that decide the output of each session."""
    for name in run.server.sessions:
        yield Part(name, "without those outside its influence", run.within_influence(name))
        yield Part(name, "in its slice", run.slice(name))


def part_faults(run, row, program):
    """What is wrong with the answers to sessions in parts of a run. Each part has names of its own in one input."""
    parts = dict(enumerate(parts_of(run)))
    given = [mixed.renamed(command, f"_{at}") for at, part in parts.items() for command in part.commands]
    told = lines_by_session(replace(row, given=lines_of(given)).run(program).stdout)
    for at, part in parts.items():
        name = f"{part.session}_{at}"
        wanted = [mixed.renamed_line(line, f"_{at}") for line in run.told(part.session)]
        fault = difference(lines_of(wanted, session=name), told[name])
        if fault:
            yield f"{part.session} {part.what}: {fault}\n{shown_input(part.given())}"


def alone_faults(run):
    """Sessions that do not receive alone what they receive among the others."""
    for name in run.server.sessions:
        alone = told_alone(Session(name, run.server.classes, run.server.turns), run.items(name))
        fault = difference(lines_of(run.told(name)), lines_of(alone))
        if fault:
            yield f"{name} alone: {fault}"


def shown_by_run(run):
    """What runs have to show."""
    lines, parts = run.lines(), [len(part.commands) for part in parts_of(run)]
    beside = sum(len(run.commands_beside(name)) for name in run.server.sessions)
    spun = [line["reply"] for line in lines if isinstance(line.get("reply"), dict) and "left" in line["reply"]]  # of `spin` alone
    done = Counter(step.command["do"] for step in run.steps if "reply" in step.lines[-1])
    return Counter({
        **shares(step.command["do"] for step in run.steps),
        "posts": sum(len(step.posts) for step in run.steps),
        "posts of events": sum(len(step.posts) for step in run.steps if step.command["do"] == "spin"),
        "arrivals": sum(step.arrived for step in run.steps),
        "calls": signals.calls_in(lines),
        "events": sum(it["events"] for it in spun),
        "replies with mismatches": sum(it["mismatched"] > 0 for it in spun),
        **{word: done[word] for word in ("publish", "join", "leave", "unpublish", "reset")},
        "refusals": sum("error" in line for line in lines),
        "commands left out": beside - sum(parts[::2]),
        "more of them by slices": sum(parts[::2]) - sum(parts[1::2]),
    })


def try_mixed(program, seed):
    """Tries some runs of sessions that listen to each other."""
    made = mixed.Chance(seed)
    declared, turns = list(made.classes()), made.choice(signals.TURNS)
    run = mixed.run_of(made, Server(Classes(declared), turns))
    with TemporaryDirectory(prefix="metad-mixed-") as room:
        row = row_with_classes(f"random, {seed}", run.commands(), run.lines(), declared, room, turns)
        faults = [row.fault(row.run(program)), *alone_faults(run), *part_faults(run, row, program)]
    fault = next(filter(None, faults), None)
    return Tried(fault and f"{fault}\nits class file: {text_of({'classes': declared})}", shown_by_run(run))


class Mixed(ProgramCases):
    """Sessions that listen to each other."""

    def test_mixed(self):
        """Random runs of a few sessions. Each session receives the same lines alone with what is posted to it, without the
        commands of sessions that no chain of joins connects to it, and by its slice."""
        seeds = range(SEED, SEED + mixed.RUNS // mixed.RUNS_AT_ONCE)
        cases = ((f"random, {seed}", seed) for seed in seeds)
        tried = self.check_each(cases, partial(try_mixed, self.program), lambda it: it.fault, ProcessPoolExecutor)
        shown = all_shown(tried)
        self.tell(", ".join(f"{what}: {number:,}" for what, number in shown.items()))
        self.assertEqual([] if CASE else [what for what, number in shown.items() if not number], [], "no run shows this")
        check_share(self, shown)


@cache
def sessions_in_turn():
    """The commands of a hundred sessions in turn, and what the plain program tells to them."""
    commands = sessions.in_turn()
    return commands, told_by_plain(commands, Classes(sessions.CLASSES))


def listening_in_turn():
    """The commands of a hundred sessions that listen to each other, the plain program's answers, and the input of each
    session by its name: its commands, and the posts of the others."""
    server, wanted, items = Server(Classes(sessions.CLASSES)), [], defaultdict(list)
    commands = sessions.in_turn(listen=True)
    names = {command["session"] for command in commands}
    for command in commands:
        lines, posts = server.done(command)
        wanted += lines
        items[command["session"]].append(command)
        for other in names - {command["session"]}:
            items[other] += [(command["session"], post) for post in posts]
    return commands, wanted, items


def alone_fault(case):
    """What is wrong with a session's output, compared with what the plain program gives it alone, or None."""
    name, items, told = case
    return difference(lines_of(told_alone(Session(name, Classes(sessions.CLASSES)), items)), told)


class Sessions(ProgramCases):
    """Sessions that share a server."""

    def setUp(self):
        self.room = self.enterContext(TemporaryDirectory(prefix="metad-sessions-"))

    def test_sessions_in_turn(self):
        """A hundred sessions that take turns receive what the plain program tells."""
        commands, wanted = sessions_in_turn()
        calls = signals.calls_in(wanted)
        self.assertGreater(calls, 0, "there are no calls")
        self.check_rows([row_with_classes("all in turn", commands, wanted, sessions.CLASSES, self.room)])
        self.tell(f"commands: {len(commands):,}, calls: {calls:,}")

    def test_sessions_that_listen(self):
        """A hundred sessions take turns and listen to the next one. Each receives what the plain program gives it alone,
        with what is posted to it."""
        commands, wanted, items = listening_in_turn()
        row = row_with_classes("all in turn", commands, wanted, sessions.CLASSES, self.room)
        self.check_rows([row])
        told = lines_by_session(row.run(self.program).stdout)
        self.check_each(((name, (name, items[name], told[name])) for name in items), alone_fault, workers=ProcessPoolExecutor)
        self.tell(f"commands: {len(commands):,}, calls: {signals.calls_in(wanted):,}")

    def test_sessions_alone(self):
        """Each of them receives from a server of its own what it receives among the others."""
        commands, wanted = map(by_session, sessions_in_turn())
        self.assertEqual(len(commands), sessions.SESSIONS)
        self.check_rows([row_with_classes(name, commands[name], wanted[name], sessions.CLASSES, self.room) for name in commands])

    @unittest.skipUnless(os.environ.get("LONG"), "LONG=1 runs it, for some minutes")
    def test_sessions_at_length(self):
        """A million random commands, in fifty sessions of one server, are answered as by the plain program."""
        made = mixed.Chance(1)
        declared = list(made.classes())
        server, commands, wanted = Server(Classes(declared), LONG_TURNS), [], []
        names = [f"s{at}" for at in range(LONG_SESSIONS)]
        for _ in range(LONG_COMMANDS):
            name = made.choice(names)
            commands.append({**made.command_among(server, name, names), "session": name})
            wanted += server.step(commands[-1])
        calls, refusals = signals.calls_in(wanted), sum("error" in line for line in wanted)
        self.assertGreater(calls, 0, "there are no calls")
        self.check_rows([row_with_classes("at length", commands, wanted, declared, self.room, LONG_TURNS, LONG_SECONDS)])
        self.tell(f"commands: {len(commands):,}, calls: {calls:,}, refusals: {refusals:,}, lines: {len(wanted):,}")
