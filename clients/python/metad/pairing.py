"""Pairs the lines that a server writes with the commands that it was given, and tells what comes between the answers.

An interrupt, or another exception of a signal handler, may come at any moment in the main thread, and a signal handler may
itself give commands and wait. So each change here is one call that happens as a whole or not at all: `SINK.extend` goes
through several small changes without a moment between them in which a handler could run. What is computed before such a
call changes nothing, or changes it in the same way when it is done again.
"""

from __future__ import annotations

import threading
from collections import deque
from contextlib import suppress
from itertools import chain, count, islice, repeat
from operator import methodcaller
from sys import maxsize
from typing import Callable, Deque, Dict, Iterable, List, Optional, Sequence, Tuple
from weakref import ref

from .errors import ConnectionClosed, MetadError, Refused, SessionLost, StrangeLine
from .hearing import Hearing, Listening
from .lines import NOBODY, Told, Value, ending_of, is_answer, is_of_front, line_of, named, scan, spun_by, told_by
from .once import Once
from .streams import SINK

LOST = "F04"  # a line of the front, after which it closes the connection

CLEAR = methodcaller("clear")
COME, TRUE = ("_has_come",), (True,)

FEW, MANY = 3, 256
"""Of more lines than these few, so many are taken at once."""

Fault = Callable[[], MetadError]
"""Makes the exception for a command that has no answer."""

Numbered = Tuple[int, bytes]
"""A line or a part of one that was read, with a number that grows."""


def reply_of(line: Dict[str, Value], do: str, keys: Dict[str, Value]) -> Value:
    """The value of a reply to a command; `Refused` where the line is an error."""
    if "error" in line:
        raise Refused(do, line["error"], named(keys))
    return line["reply"]


class Answer(Once):
    """The result of a command: a line, or a fault."""

    line: Optional[Dict[str, Value]] = None
    fault: Fault = ConnectionClosed
    mark = maxsize
    """The number of its line: calls and warnings with smaller numbers came before it."""

    def __init__(self, session: Optional[Hearing] = None) -> None:
        self.asking: Sequence[ref[Hearing]] = () if session is None else session.receivers
        """The session that gave the command, if any."""

    def name_session(self, line: Dict[str, Value]) -> None:
        """Notes the name that a line has for the session that gave the command."""
        session, name = self.asking[0]() if self.asking else None, line["session"]
        if session is not None and name != NOBODY and name != session.known_as:
            session.known_as, session._ending = name, ending_of(name)

    def fail(self, fault: Fault) -> None:
        """Ends the command without an answer."""
        self.fault = fault
        self.come()


class Event:
    """A call, a warning or the result of a `spin`, which sessions are to receive."""

    __slots__ = ("number", "what", "sessions", "listening", "begun")

    def __init__(self, number: int, what: Told) -> None:
        self.number = number
        self.what = what
        self.sessions: Sequence[ref[Hearing]] = ()
        """The receivers: the session that gave a command, or all of a connection if nobody has asked."""
        self.listening: Optional[Sequence[Listening]] = None
        self.begun = 0
        """How many listeners were called."""

    def is_told(self) -> bool:
        """Whether all listeners were called, or are being called; finds out first who they are."""
        if self.listening is None:
            sessions = [it() for it in self.sessions]
            self.listening = [told for it in sessions if it is not None for told in it.listening_to(self.what)]
        return self.begun == len(self.listening)

    def tell_next(self) -> None:
        """Tells the next one that listens. No interrupt comes between the count and the call."""
        assert self.listening is not None
        listening, what = self.listening[self.begun], self.what
        self.begun += 1
        listening(what)


def are_plain(lines: Sequence[Value]) -> bool:
    """Whether all these lines answer commands, and say nothing else."""
    try:
        return all([len(it) == 2 and type(it["session"]) is str and ("reply" in it or it["error"] != LOST) for it in lines])
    except (LookupError, TypeError):
        return False


class Pairing:
    """The commands of a connection that are under way, and the lines that have come."""

    def __init__(self, is_live: bool) -> None:
        self.is_live = is_live
        """Whether events come unasked."""
        self.live_fault: Optional[str] = None
        """The code by which the front's own `spin` was refused; the session is not live any more then."""
        self._news = Once()
        self._sessions: List[ref[Hearing]] = []  # which receive what nobody has asked for
        self._under_way: Deque[Answer] = deque()
        self._numbers = count()
        self._came: Deque[Numbered] = deque()  # what was read and not taken
        self._since: Deque[Event] = deque()  # what came since the last answer
        self._heard: Deque[Event] = deque()  # what is to be delivered
        self._telling = threading.RLock()
        self._fault: Optional[Fault] = None  # why there are no more answers

    def add(self, session: Hearing) -> None:
        """Adds a session that receives what comes unasked."""
        self._sessions.append(ref(session))
        self._ring()

    def news(self) -> Once:
        """An event of the next line of a live session that somebody is to receive, or of its end."""
        return self._news

    def tell(self) -> None:
        """Delivers all that has come, as soon as there is a session."""
        heard = tuple(self._heard)
        if self._sessions and heard:
            self._tell(heard[-1].number + 1)

    def has_untold(self) -> bool:
        """Whether something has come that nobody has received yet."""
        return bool(self._heard)

    def has_ended(self) -> bool:
        """Whether nothing more will come."""
        return self._fault is not None

    def check(self) -> None:
        """Raises the reason why nothing more will come, if there is one."""
        if self._fault is not None:
            raise self._fault()

    def settled(self, answer: Answer) -> Dict[str, Value]:
        """The line of an answer that has come, once all that came before it was delivered."""
        if self._heard:
            self.tell_before(answer)
        line = answer.line
        if line is None:
            raise answer.fault()
        return line

    def tell_before(self, answer: Answer) -> None:
        """Tells all that came before an answer."""
        if self._heard:
            self._tell(answer.mark)

    def _tell(self, mark: int) -> None:
        """Tells what was heard up to a number: in its order, and by one thread at a time. What is being
        delivered stays first until that is done."""
        with self._telling:
            while self._heard and self._heard[0].number < mark:
                event = self._heard[0]
                if event.is_told():
                    with suppress(ValueError):  # a signal handler has taken it away meanwhile
                        self._heard.remove(event)
                else:
                    event.tell_next()

    def _ring(self) -> None:
        """Wakes those that wait for news."""
        news, self._news = self._news, Once()
        news.come()

    def _take_all(self) -> None:
        """Takes all whole lines that were read."""
        singly = 0  # so many lines are taken one by one, as there are others than plain replies among them
        while self._came:
            try:
                came = self._came[0]
                if not came[1].endswith(b"\n"):
                    if not self._join_first():
                        return
                elif singly or len(self._came) <= FEW or len(self._under_way) <= FEW or self._since:
                    singly = max(singly - 1, 0)
                    self._take(came)
                elif not self._take_replies():
                    singly = MANY
            except IndexError:
                pass  # a signal handler has taken it meanwhile

    def _take_replies(self) -> bool:
        """Takes several lines at once, in few steps, if they are plain replies to commands under way; whether they are."""
        lines = tuple(self._came.copy())[: min(len(self._under_way), MANY)]
        if not lines[-1][1].endswith(b"\n"):
            lines = lines[:-1]
        answers = tuple(islice(self._under_way.copy(), len(lines)))
        try:
            read = scan((b"[" + b",".join([text for _, text in lines]) + b"]").decode(), 0)[0]
        except (ValueError, RecursionError, StopIteration, TypeError):
            return False
        if len(read) != len(lines) or not are_plain(read):
            return False
        asking, name = None, NOBODY
        for answer, line, (number, _) in zip(answers, read, lines):
            answer.line, answer.mark = line, number
            if answer.asking is not asking or line["session"] != name:
                asking, name = answer.asking, line["session"]
                answer.name_session(line)
        taken = map(self._came.remove, lines), map(self._under_way.remove, answers)
        self._commit(*taken, map(setattr, answers, repeat("_has_come"), repeat(True)))
        for answer in answers:
            if answer._bells:
                answer.ring_all()
        return True

    def _join_first(self) -> bool:
        """Joins the parts of the first line; whether all of it was read. It removes only the parts that it has seen."""
        parts: List[Numbered] = []
        for part in tuple(self._came):
            parts.append(part)
            if part[1].endswith(b"\n"):
                break
        whole = (parts[0][0], b"".join(text for _, text in parts))
        with suppress(ValueError):
            SINK.extend(chain(map(self._came.remove, parts), map(self._came.appendleft, (whole,))))
        return whole[1].endswith(b"\n")

    def _take(self, came: Numbered) -> None:
        """Takes the first line that was read, as a whole or not at all."""
        text = came[1]
        line = line_of(text)
        if is_of_front(line):
            self._take_spun(came, line)
        elif is_answer(line):
            self._take_answer(came, line)
        else:
            told = told_by(line, text)
            since = () if told is None else (Event(came[0], told),)
            self._commit(map(self._came.remove, (came,)), map(self._since.append, since))
            if self.is_live and not self._under_way:
                self._keep(self._sessions)
                self._ring()

    def _take_answer(self, came: Numbered, line: Dict[str, Value]) -> None:
        """Pairs an answer with the oldest command, and what came before it with the session that gave that."""
        if line.get("error") == LOST:
            raise SessionLost
        if not self._under_way and self._came[0] is came:
            raise StrangeLine(came[1])
        answer = self._under_way[0]
        answer.line, answer.mark = line, came[0]
        answer.name_session(line)
        taken = map(self._came.remove, (came,)), map(self._under_way.remove, (answer,))
        done = map(setattr, (answer,), COME, TRUE)
        if self._since:
            self._give_to(answer.asking)
            heard = map(self._heard.extend, (self._since,)), map(CLEAR, (self._since,))
            self._commit(*taken, *heard, done)
            if self.is_live:
                self._ring()
        else:
            self._commit(*taken, done)
        if answer._bells:
            answer.ring_all()

    def _take_spun(self, came: Numbered, line: Dict[str, Value]) -> None:
        """Takes the answer to a `spin` of the front, which answers no command of this client. The lines before
        it come from that `spin`, or from others who speak for the session."""
        if "error" in line:
            self._commit(map(self._came.remove, (came,)))
            self._keep(self._sessions)
            self.is_live, self.live_fault = False, str(line["error"])
        else:
            event = Event(came[0], spun_by(line, came[1]))
            self._commit(map(self._came.remove, (came,)), map(self._since.append, (event,)))
            self._keep(self._sessions)
        self._ring()

    def _commit(self, *changes: Iterable[object]) -> None:
        """Makes changes, all at once; does nothing where the first one, which takes something away, is done already: by a signal
        handler."""
        try:
            SINK.extend(chain(*changes))
        except ValueError:
            pass

    def _give_to(self, sessions: Sequence[ref[Hearing]]) -> None:
        """Says who receives what came since the last answer."""
        for event in tuple(self._since):
            event.sessions = sessions

    def _keep(self, sessions: Sequence[ref[Hearing]]) -> None:
        """Keeps what came since the last answer, for these sessions."""
        self._give_to(sessions)
        SINK.extend(chain(map(self._heard.extend, (self._since,)), map(CLEAR, (self._since,))))

    def _fail_all(self, fault: Fault) -> None:
        """Ends all commands under way, and those to come, without an answer."""
        self._fault = self._fault or fault
        with suppress(IndexError):
            while True:
                self._under_way.popleft().fail(self._fault)
