"""A connection with a server, by two streams.

Whoever waits for an answer reads: it takes what comes for others too, and they wait meanwhile. Nothing is read or written in
the background, unless lines come unasked, as in a live session and with asyncio, or the streams are no files. Then one
thread writes what is given, and another one reads. Two threads also do so while a server lags far.

Only the main thread of a program is interrupted by signals. What it changes here are calls that happen as a whole or not at
all, see `pairing` and `streams`. So an interrupt may come at any moment, and takes no line and no answer from anybody.
"""

from __future__ import annotations

import queue
import sys
import threading
import time
from collections import deque
from contextlib import suppress
from functools import partial
from itertools import chain
from typing import IO, Callable, Deque, Dict, Optional, Sequence, Set, Tuple

from .errors import ConnectionClosed, NotAnswered, SessionLost, StrangeLine
from .hearing import Hearing
from .lines import NO_COMMAND, Value, plain_reply
from .once import Bell, Once
from .pairing import Answer, Fault, Pairing, reply_of
from .streams import AT_ONCE, SINK, Files, parts_of

LOOK_SECONDS = 0.25
"""After so long a thread that waits looks again. An interrupt may have come just before it was to read."""


OPEN: Set[Connection] = set()
"""The connections whose end somebody has to see, which may be the only ones that hold them."""


def start(name: str, work: Callable[[], object]) -> None:
    """Starts a thread."""
    threading.Thread(target=work, name=f"metad {name}", daemon=True).start()


class Connection(Pairing):
    """Two streams, from a server and to it.

    Where they are of a live session, a front gives `spin` automatically, and its results come unasked: `news` says
    when, and `tell` tells them.
    """

    _ends_when_hung_up = False
    """Whether the server's output ends some time after its input was ended."""

    def __init__(self, reader: IO[bytes], writer: IO[bytes], is_live: bool = False) -> None:
        super().__init__(is_live)
        self._reader = reader
        self._writer = writer
        self._files: Optional[Files] = None  # None where threads read and write all the time
        self._at_once: Optional[Files] = None  # what is written by whoever gives a command, if no other one is under way
        self._unwritten: Deque[bytes] = deque()
        self._ticks: queue.SimpleQueue[bool] = queue.SimpleQueue()  # wakes the thread that writes; False at the end
        self._turns: Deque[Bell] = deque()  # of those that wait while another thread reads
        self._reading = threading.RLock()
        self._writing = threading.RLock()
        self._is_blocked = False  # whether a thread reads
        self._is_behind = False  # whether a thread writes what was not taken at once
        self._is_ending = False  # whether nothing more is taken
        self._has_begun_to_end = False  # whether a thread waits for the end
        self._is_hung_up = False  # whether no more commands are taken
        self._is_shut = False  # whether nothing more is written
        self._hung_up = Once()
        self._ended = Once()

    def open(self, is_heard: bool = False) -> None:
        """Begins to write and to read: in the background where lines are heard as they come."""
        self._at_once = Files.below(self._reader, self._writer)
        if not is_heard and not self.is_live:
            self._files = self._at_once
        OPEN.add(self)
        if self._files is None:
            start("writer", self._write)
            start("reader", self._read)

    def give(self, answer: Answer, line: bytes) -> None:
        """Has a line written after those that were given before; its answer will come."""
        self.give_lines((answer,), line)

    def give_lines(self, answers: Sequence[Answer], text: bytes) -> None:
        """Has several lines written, which a pipe takes at once, unless it is a single one."""
        self.give_all(answers, (text,) if len(text) <= AT_ONCE or self._at_once is None else parts_of(text))

    def give_all(self, answers: Sequence[Answer], parts: Sequence[bytes]) -> None:
        """Has the lines of commands written, in parts that a pipe takes at once. A single part is written at once if no other
        command is under way, because the server takes it then."""
        if self._is_hung_up:
            self._refuse(answers)
            return
        files = self._at_once
        with self._writing:
            if files is not None and len(parts) == 1 and not (self._under_way or self._unwritten or self._is_shut):
                try:
                    SINK.extend(chain(map(self._under_way.extend, (answers,)), files.writing(parts[0])))
                except OSError as error:
                    self._give_up(error)
            else:
                SINK.extend(chain(map(self._under_way.extend, (answers,)), map(self._unwritten.extend, (parts,))))
                if self._files is None:
                    self._ticks.put(True)
                else:
                    self._write_on(self._files)
        if self._is_shut or self._fault is not None:
            self._refuse(answers)

    def ask(self, session: Hearing, line: bytes, do: str, keys: Dict[str, Value]) -> Value:
        """Gives the line of a session's command and waits; returns the value of the reply, or raises `Refused` or why no answer
        comes.

        Where no other command is under way it takes a shorter way than `give` and `settle`: it writes the line, and reads one that
        is a plain reply.
        """
        files, answer = self._files, Answer(session)
        if files is None or self._under_way or len(line) > AT_ONCE:
            self.give(answer, line)
        else:
            self.give_all((answer,), (line,))
            found = self._read_first(files, answer, session._ending)
            if found is not None:
                if self._heard:
                    self.tell_before(answer)
                return found[0]
        return reply_of(self.settle(answer, None, do), do, keys)

    def settle(self, answer: Answer, timeout: Optional[float], what: str) -> Dict[str, Value]:
        """Waits for an answer, and tells all that came before it; returns the line, or raises why no answer comes."""
        if not answer._has_come and not self.wait(answer, timeout):
            raise NotAnswered(f"no answer to {what} in {timeout} seconds")
        return self.settled(answer)

    def await_answer(self, answer: Answer, timeout: Optional[float]) -> None:
        """Waits for an answer, whatever it is, and tells all that came before it."""
        if not self.wait(answer, timeout):
            raise NotAnswered(f"not all commands of a batch were answered in {timeout} seconds")
        self.tell_before(answer)

    def hang_up(self) -> None:
        """Ends the server's input after all that was given. It does not wait for that."""
        self._is_hung_up = True
        self._ticks.put(False)
        if self._files is not None:
            self._write_on(self._files)

    def abandon(self) -> None:
        """Hangs up where no caller waits for the end."""
        self.hang_up()
        if self._files is not None and not sys.is_finalizing():
            start("end", partial(self.wait, self.closed()))

    def closed(self) -> Once:
        """What comes when the connection is closed, after it was hung up."""
        return self._ended if self._ends_when_hung_up else self._hung_up

    def status(self) -> Optional[int]:
        """The server's exit status, where it was started here and has ended."""
        return None

    # Waiting, and reading by whoever waits.

    def wait(self, once: Once, timeout: Optional[float] = None) -> bool:
        """Waits at most so many seconds for something that comes by reading; says whether it has come."""
        until = None if timeout is None else time.monotonic() + timeout
        try:
            while not once._has_come:
                if self._files is None or self._is_ending:
                    return once.wait(None if until is None else until - time.monotonic())
                if until is not None and time.monotonic() >= until:
                    break
                if not self._as_reader(self._files, once, until):
                    self._wait_turn(self._files, once, until)
            return once._has_come
        finally:
            if self._turns:
                self._pass_turn()

    def look(self) -> None:
        """Takes what has come, without waiting."""
        if self._files is not None and not self._is_ending:
            self._as_reader(self._files, Once(), 0)

    def _as_reader(self, files: Files, once: Once, until: Optional[float]) -> bool:
        """Reads until something has come or the time is over, unless another thread reads; whether this one did."""
        is_mine = was_blocked = False
        try:
            is_mine = self._reading.acquire(False)
            if is_mine:
                was_blocked, self._is_blocked = self._is_blocked, True
                self._read_until(files, once, until)
        finally:
            if is_mine:
                self._is_blocked = was_blocked
            try:
                self._reading.release()
            except RuntimeError:
                pass  # another thread reads
        if was_blocked:
            self.give(Answer(), NO_COMMAND)  # by a signal handler: what it has interrupted reads the answer, and looks again
        return is_mine

    def _read_first(self, files: Files, answer: Answer, ending: Optional[str]) -> Optional[Tuple[Value, int]]:
        """Reads the answer to the only command under way, without a limit. If it is a plain reply with this ending and nothing
        else has come, it is taken, and its value returned. All else is left to `wait`."""
        if self._is_blocked:
            return None  # another thread reads, or a signal handler has interrupted this one while it reads
        is_mine, found = False, None
        try:
            is_mine = self._reading.acquire(False)
            if is_mine:
                self._is_blocked = True  # from here on a signal handler that takes the answer writes something to be read
                if not (answer._has_come or self._is_ending or self._since):
                    found = self._take_first(files, answer, ending)
        finally:
            if is_mine:
                self._is_blocked = False
            try:
                self._reading.release()
            except RuntimeError:
                pass  # another thread reads
        return found

    def _take_first(self, files: Files, answer: Answer, ending: Optional[str]) -> Optional[Tuple[Value, int]]:
        """Takes the answer to the only command under way if it is a plain reply with this ending and nothing else has come; returns
        its value. A signal handler may have taken the answer; it has told so by then, or the lines it has read are there."""
        if self._came:
            return None
        text = files.first_text()
        found = None if answer._has_come or self._came else plain_reply(text, ending)
        if found is not None:
            answer.mark, answer._has_come = next(self._numbers), True
            try:
                SINK.extend(chain(files.taking(text), map(self._under_way.remove, (answer,))))
            except ValueError:
                pass  # it was taken meanwhile
            if answer._bells:
                answer.ring_all()
        return found

    def _read_until(self, files: Files, once: Once, until: Optional[float]) -> None:
        """Reads, and writes what could not be written at once, until something has come or the time is over."""
        if self._came:
            self._take_read(None)
        is_kept = False  # whether another thread writes
        while not once._has_come and not self._is_ending:
            seconds = LOOK_SECONDS if until is None else min(until - time.monotonic(), LOOK_SECONDS)
            is_writing = bool(self._unwritten) and not self._is_behind and not is_kept
            if files.wait(max(seconds, 0), is_writing):
                self._take_read(files)
            elif seconds <= 0:
                return
            is_kept = is_writing and not self._write_as_reader(files)

    def _take_read(self, files: Optional[Files]) -> None:
        """Reads, if there is something to read, and takes what was read. At the end, and after a strange line, a thread ends the
        connection."""
        strange: Optional[Fault] = None
        try:
            is_open = files is None or files.read(self._came, self._numbers)
            self._take_all()
        except StrangeLine as error:
            is_open, strange = False, partial(StrangeLine, error.line)
        except SessionLost:
            is_open, strange = False, SessionLost
        except OSError as error:
            if error.errno is None:
                raise  # by a signal handler
            is_open = False
        if not is_open:
            start("end", partial(self._finish, strange))
            self._is_ending = True

    def _wait_turn(self, files: Files, once: Once, until: Optional[float]) -> None:
        """Waits while another thread reads, until something has come or that thread has left."""
        rung: queue.SimpleQueue[None] = queue.SimpleQueue()
        bell = partial(rung.put, None)
        try:
            once.ring(bell)
            self._turns.append(bell)
            if not self._as_reader(files, once, until):  # unless that thread has left meanwhile
                rung.get(timeout=LOOK_SECONDS if until is None else max(0, min(until - time.monotonic(), LOOK_SECONDS)))
        except queue.Empty:
            pass
        finally:
            once.silence(bell)
            with suppress(ValueError):
                self._turns.remove(bell)

    def _pass_turn(self) -> None:
        """Wakes the next one of those that wait while another thread reads."""
        with suppress(IndexError):
            self._turns.popleft()()

    # Writing.

    def _give_up(self, error: OSError) -> None:
        """Ends the input if the other side has gone, which the end of what it writes tells; raises what a signal handler has
        raised."""
        if error.errno is None:
            raise error
        self._shut_down()

    def _write_on(self, files: Files) -> None:
        """Writes what the server takes at once; threads do the rest."""
        with self._writing:
            if self._is_behind or self._is_shut:
                return
            try:
                while self._unwritten:
                    if not files.can_write():
                        start("writer", partial(self._catch_up, files))
                        return
                    files.write(self._unwritten)
            except IndexError:
                pass  # a signal handler has written it
            except OSError as error:
                self._give_up(error)
            if self._is_hung_up and not self._unwritten:
                self._shut_down()

    def _write_as_reader(self, files: Files) -> bool:
        """Writes what the server takes at once, unless another thread writes; whether this one did. It waits for no other thread,
        whose signal handler may wait for what this one reads."""
        is_mine = False
        try:
            is_mine = self._writing.acquire(False)
            if is_mine:
                self._write_on(files)
        finally:
            try:
                self._writing.release()
            except RuntimeError:
                pass  # another thread writes
        return is_mine

    def _catch_up(self, files: Files) -> None:
        """Writes all that was given, while another thread reads until all is answered."""
        with self._writing:
            if self._is_behind:
                return
            self._is_behind = True
        start("reader", self._read_behind)
        try:
            while self._is_behind:
                self._write_given()
                with self._writing:
                    self._is_behind = bool(self._unwritten)
        except (OSError, ValueError):
            self._shut_down()
            self._is_behind = False
        self._write_on(files)

    def _read_behind(self) -> None:
        """Reads until all is answered."""
        with suppress(IndexError):
            while True:
                self.wait(self._under_way[-1])

    def _write_given(self) -> None:
        """Writes all that was given, and waits where the server does not take it."""
        while self._unwritten:
            self._writer.write(self._unwritten.popleft())
        self._writer.flush()

    def _write(self) -> None:
        """Writes what is given, up to the end."""
        try:
            for _ in iter(self._ticks.get, False):
                if self._unwritten:
                    self._write_given()
            self._write_given()
        except (OSError, ValueError):
            pass  # the other side has gone, which the end of what it writes tells
        finally:
            self._shut_down()

    def _shut_down(self) -> None:
        """Ends the server's input, and refuses what was not written."""
        self._is_hung_up = True
        with suppress(OSError, ValueError):
            self._shut()
        rest = sum(part.count(b"\n") for part in tuple(self._unwritten))
        self._refuse(tuple(self._under_way)[-rest:] if rest else ())
        self._unwritten.clear()
        self._hung_up.come()
        self._is_shut = True
        if not self._ends_when_hung_up:
            OPEN.discard(self)

    def _shut(self) -> None:
        """Ends the server's input."""
        self._writer.close()

    def _refuse(self, answers: Sequence[Answer]) -> None:
        """Ends commands that will not be written: at the server's end, where that is sure to come."""
        for answer in answers:
            if self._fault is None and not self._ends_when_hung_up:
                with suppress(ValueError):
                    self._under_way.remove(answer)
                answer.fail(ConnectionClosed)
            elif answer not in self._under_way:
                self._under_way.append(answer)
        if self._fault is not None:
            self._fail_all(self._fault)

    # The end.

    def _read(self) -> None:
        """Reads all that the server writes, and its end; text after the last end of a line is dropped."""
        strange: Optional[Fault] = None
        try:
            for text in self._reader:
                if not text.endswith(b"\n"):
                    break
                self._came.append((next(self._numbers), text))
                self._take_all()
        except StrangeLine as error:
            strange = partial(StrangeLine, error.line)
        except SessionLost:
            strange = SessionLost
        except (OSError, ValueError):
            pass  # the stream was closed, or the other side has gone
        finally:
            self._finish(strange)

    def _finish(self, strange: Optional[Fault]) -> None:
        """Ends all commands under way, and those to come, when nothing more can be read, or what is read is strange."""
        with self._reading:
            if self._has_begun_to_end:
                return
            self._has_begun_to_end = self._is_ending = True
        self._keep(self._under_way[0].asking if self._under_way else self._sessions if self.is_live else ())
        if strange:
            self._fail_all(strange)
        self.hang_up()
        self._drain()
        end = self._end()
        self._fail_all(strange or end)
        self._ring()
        self._ended.come()
        OPEN.discard(self)

    def _drain(self) -> None:
        """Reads the rest: nobody can tell what it means any more."""
        with suppress(OSError, ValueError):
            while self._reader.read(65_536):
                pass

    def _end(self) -> Fault:
        """Waits for the server's end, once its output has ended; answers why there are no more answers."""
        return ConnectionClosed
