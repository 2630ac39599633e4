"""Sessions that wait for the replies to their commands, and the servers that they are of."""

from __future__ import annotations

import threading
from functools import partial
from tempfile import TemporaryDirectory
from types import TracebackType
from typing import IO, Any, Callable, Dict, List, Optional, Sequence, Set, Type, TypeVar, Union, cast, overload

from . import commands
from .asking import Asked
from .batches import Batch
from .connection import Connection
from .descriptions import BindingInfo, ConnectionInfo
from .dumping import Result, Steps, all_bindings, all_connections, commands_of, replaying, snapshot, text_of
from .errors import NotAnswered, OtherSession, Refused
from .finding import proxies_of
from .hearing import Hearing, Listening, OnCall, OnWarning
from .holding import START_SECONDS, Holder, class_words
from .lines import Value, command_line
from .pairing import reply_of
from .pending import BasePending
from .programs import ProgramConnection, Word
from .proxies import Heard, Method, Proxy, hear_post, wait_for
from .reaching import SocketConnection
from .session_commands import Waiting
from .shapes import NO_COMMAND, Shape
from .sockets import connected
from .tls import Tls
from .tools import explained
from .waiting import Calls, Done, not_in_time, wait_until

Replied = TypeVar("Replied")


class Pending(BasePending["Session"]):
    """The answer to a command that was sent. It is made by `Session.send`."""

    def result(self, timeout: Optional[float] = None) -> Value:
        """Waits for the answer; returns the value of the reply, or raises `Refused`.

        Callbacks first receive all that came before the answer. Where the answer does not come in so many seconds,
        it raises `NotAnswered`. After that, after an interrupt and after the exception of a callback the answer can be
        asked for again, and it says the same however often it is asked.
        """
        connection = self._session.server.connection
        line = connection.settle(self._answer, timeout, self._asked.do)
        return reply_of(line, self._asked.do, self._asked.keys)


class Session(Waiting, Hearing):
    """A session of a server, by its name. It is made by `Server.session`.

    Objects and connections are numbers, as in the protocol. The arguments of the methods are the keys of the
    commands; where a key need not be there, None leaves it out. A method raises `Refused` where the command is
    refused, and `ServerGone` where the server has ended before it answered.

    `on_call` and `on_warning` are called with a `Call` and a `Warned`, those that `on` was given with a `Call`, in the
    order of the server's lines. They are called by the thread that waits for an answer, before it gets that: so
    what comes while no thread waits is delivered at the next wait. They may give commands themselves, and what comes before
    the answers to these is delivered within. An exception of a callback comes out of the call or `result` that was waiting;
    nothing else is lost by that.

    A call or a warning belongs to the session that gave the command whose answer comes next. So the session that
    asked receives it, whatever name a front has given to it. Behind a front all names of a connection are one session
    of the server: take one `Session` of it.

    With `auto_spin` each command that waits, except `spin`, is followed by one. The client sends it right after the
    command, and the method returns when both are answered. So what the command has posted, and what other sessions have
    posted by then, is called before it returns. Commands of callbacks are followed by a spin when the callback has
    returned. It costs a line and no further wait. What other sessions post later waits for the next command, as the
    server tells nothing unasked. `send` spins nothing.

    In a live session, which a front may offer, events need no `spin`: what comes unasked is delivered at the next wait, and
    `wait_for` and `calls` wait for it. Each `Session` of the connection receives it.
    """

    def __init__(self, server: Server, name: str) -> None:
        super().__init__(name)
        self.server = server
        """The server that it is of."""
        self.auto_spin = False
        """Whether each command is followed by a `spin`; may be set at any time."""
        self._spinning: Set[int] = set()  # the threads in which it spins automatically
        self._is_due = False

    def send(self, do: str, **keys: Value) -> Pending:
        """Sends a command by its word and its keys, and does not wait for the answer.

        A key that is a word of Python ends with an underscore, as in `send("new", class_="Probe")`. None is
        JSON's null. A proxy stands for the number of its object. The server may lag far: what was not written
        yet, and what is not asked for yet, is kept in memory.
        """
        return self._give(Asked(do, **keys))

    def batch(self, timeout: Optional[float] = None) -> Batch:
        """A batch of commands, for `with`: its methods send commands and return at once, and the end of the block waits for all
        answers, so many seconds at most. Each command is answered for itself; an error of one hides no other."""
        return Batch(self, timeout)

    def command(self, do: str, **keys: Value) -> Value:
        """Sends a command as `send` does, and waits: for commands that have no method here."""
        return self.ask(Asked(do, **keys))

    def ask(self, asked: Asked[Replied]) -> Replied:
        """Gives a command that was built by `metad.commands`, and waits for the reply."""
        if self.auto_spin and asked.do != "spin":
            pending = self._give(asked)
            self._spin_on()
            return cast(Replied, pending.result())
        do, keys = asked.do, asked.keys
        replied: Replied = self.server.connection.ask(self, command_line(self.name, do, keys), do, keys)
        return replied

    def reset(self) -> bool:
        """Puts the session back to how it is before its first command; nobody listens to single slots any more."""
        done = self.ask(commands.reset())
        self._forget_listeners()
        return done

    def create(self, class_: str, parent: Optional[Proxy] = None) -> Proxy:
        """Makes an object as `new` does, and returns it with the properties and methods of its class."""
        if parent is not None and parent.session is not self:
            raise OtherSession(f"{parent!r} is of another session")
        shape = self.shape(class_)
        return Proxy(self, self.new(class_, None if parent is None else parent.number), shape)

    def proxy(self, object: int, class_: str) -> Proxy:
        """A proxy of an existing object whose class is given, so that the server is not asked for it."""
        return Proxy(self, object, self.shape(class_))

    def shape(self, class_: str) -> Shape:
        """What there is in a class. The server is asked for it once."""
        shapes = self.server.shapes
        if class_ not in shapes:
            try:
                shapes[class_] = Shape.described(self.describe(class_))
            except Refused as refused:
                if refused.code != NO_COMMAND:
                    raise
                shapes[class_] = Shape(self.meta(class_))  # of an older server
        return shapes[class_]

    def object(self, number: int) -> Proxy:
        """A proxy of an existing object, whose class the server is asked for."""
        return self._gathered(proxies_of(self, Proxy, [number]))[0]

    def all_connections(self, object: Optional[int] = None) -> List[ConnectionInfo]:
        """All connections, or all those of an object. It gives as many commands as that takes."""
        return self._gathered(all_connections(object))

    def all_bindings(self) -> List[BindingInfo]:
        """All bound properties. It gives as many commands as that takes."""
        return self._gathered(all_bindings())

    def dump(self) -> str:
        """What the session holds, as a text: trees of objects with the properties that do not have the default of their
        type, connections, publications, joins and open groups. Events and the states of functors are left out.

        It takes some commands for each object. What another client of the session changes meanwhile may be in it or not.
        """
        return text_of(self._gathered(snapshot()))

    def dump_commands(self) -> List[Dict[str, Value]]:
        """The commands that make in a fresh session what this one holds, with the same numbers, so that its `dump` is the
        same. Each is a dict with the command's keys, without a session; `replay` gives them.

        Numbers of objects and connections that are gone are used up by others, so it has about as many commands as there
        were objects and connections ever. With objects that are gone and that bindings still read, there may be at most
        4,096 for that.
        """
        return commands_of(self._gathered(snapshot()))

    def replay(self, given: Sequence[Dict[str, Value]]) -> None:
        """Gives the commands of a `dump_commands` to this session. Raises `NotFresh` if it has had objects before."""
        self._gathered(replaying(given))

    def listen(self, from_: str, name: str, types: Sequence[str], told: Listening) -> Heard:
        """Has a function called for what another session publishes under a name, with these types: as it comes in a live
        session, otherwise when this one spins. It needs a relay, see `with_relay`."""
        return hear_post(self, from_, name, types, told)

    @overload
    def wait_for(self, what: Method, timeout: Optional[float] = 5.0) -> List[Value]: ...

    @overload
    def wait_for(self, what: Callable[[], Done], timeout: Optional[float] = 5.0) -> Done: ...

    def wait_for(self, what: Union[Method, Callable[[], Done]], timeout: Optional[float] = 5.0) -> Union[List[Value], Done]:
        """Waits until a predicate returns something true, and returns that; or until a signal is sent, and returns its
        arguments. It raises `NotAnswered` if that takes too long; with None it waits without a limit.

        A predicate is called at first, and whenever the session may have received something. In a live session this waits
        for what comes; any other one spins meanwhile.
        """
        if isinstance(what, Method):
            return wait_for(what, timeout)
        done = wait_until(self, what, timeout)
        if not done:
            raise not_in_time(timeout)
        return done

    def calls(self, timeout: Optional[float] = None) -> Calls:
        """The calls of the session's slots and functors from now on, to be iterated: each as soon as it comes, and after
        `on_call` was called with it. They end when none comes for so many seconds.

        In a live session this waits for what comes; any other one spins meanwhile. `ConnectionClosed` where nothing more
        can come.
        """
        return Calls(self, timeout)

    def _gathered(self, steps: Steps[Result]) -> Result:
        """Gives lists of commands, each at once, and returns what comes of their replies."""
        try:
            asked = next(steps)
            while True:
                pending = [self._give(it) for it in asked]
                asked = steps.send([it.result() for it in pending])
        except StopIteration as stop:
            return cast(Result, stop.value)

    def _give(self, asked: Asked[Any]) -> Pending:
        return Pending.given(self, asked)

    def _spin_on(self) -> None:
        """Spins, and again for the commands that callbacks give meanwhile; within a callback, when that has ended."""
        self._is_due, thread = True, threading.get_ident()
        if thread in self._spinning:
            return
        self._spinning.add(thread)
        try:
            while self._is_due:
                self._is_due = False
                self._settle(self._give(commands.spin()))
        finally:
            self._spinning.discard(thread)

    def _settle(self, pending: Pending) -> None:
        """Waits for an answer, whatever it is."""
        try:
            pending.result()
        except Refused:
            pass  # the session has failed, and the answer to the command itself says so


class Server(Holder):
    """A server, reached by a stream of its output and a stream to its input.

    It may be used from several threads, which wait side by side. Callbacks run one at a time over all threads: one
    that runs may give commands, and must not wait for another thread that waits for an answer.

    Whoever waits for an answer reads what the server writes, also for others that wait. Commands never wait for answers that
    nobody has asked for yet: where the server does not take a command at once, threads write and read until all is
    answered. An interrupt, which stops a wait, takes no answer from anybody.

    As a context manager, a server is closed at the end. One that is not closed warns of that by a `ResourceWarning`
    when nobody holds it any more, and its input is ended then.
    """

    def __init__(self, reader: IO[bytes], writer: IO[bytes], live: bool = False) -> None:
        """With `live` the streams belong to a session that a front has made live: events come unasked."""
        connection = Connection(reader, writer, live)
        connection.open()
        self._begin(connection)

    @classmethod
    def of(cls, connection: Connection) -> Server:
        """The server at the other end of an open connection."""
        server = cls.__new__(cls)
        server._begin(connection)
        return server

    def _begin(self, connection: Connection) -> None:
        self._sessions: Dict[str, Session] = {}
        self._hold(connection)

    def __enter__(self) -> Server:
        return self

    def __exit__(
        self, kind: Optional[Type[BaseException]], error: Optional[BaseException], trace: Optional[TracebackType]
    ) -> None:
        self.close()

    def session(
        self, name: str, on_call: Optional[OnCall] = None, on_warning: Optional[OnWarning] = None
    ) -> Session:
        """The session of this name: the same object however often it is asked for.

        A callback that is given takes the place of the one before.
        """
        new = Session(self, name)
        session = self._sessions.setdefault(name, new)
        if session is new:
            self.connection.add(session)
        session.on_call = session.on_call if on_call is None else on_call
        session.on_warning = session.on_warning if on_warning is None else on_warning
        return session

    def close(self, timeout: Optional[float] = None) -> Optional[int]:
        """Ends the server's input after all that was given, and waits for its end where that can be seen; returns its
        exit status where it was started here.

        Answers that have come by then can still be asked for. Closing again does nothing more. Where the end does not
        come in so many seconds, it raises `NotAnswered`.
        """
        self._hang_up()
        if not self.connection.wait(self.connection.closed(), timeout):
            raise NotAnswered(f"no end in {timeout} seconds")
        return self.connection.status()


def start(
    program: Word, *words: Word, classes: Optional[Dict[str, Value]] = None, timeout: Optional[float] = START_SECONDS
) -> Server:
    """Starts a server: a program with the words of its command line. `OSError` where it cannot be started.

    `classes` is what a class file holds; one is written for the start then, as the last word. Where it is refused and
    the tool `check` is installed with this package, the exception says where the first fault is. The server is given a
    line that is no command and enters no session. When it has answered that by `E02`, it is there: where it ends
    before, this raises `ClassFileRefused` or `NotStarted`, and where it does nothing in so many seconds, it is killed,
    and this raises `NotAnswered`.
    """
    with TemporaryDirectory(prefix="metad-") as folder:
        given = class_words(classes, folder)
        connection = ProgramConnection([program, *words, *given])
        try:
            connection.open()
            answer = connection.ask_first()
            if not connection.wait(answer, timeout):
                raise NotAnswered(f"the server has not answered its first line in {timeout} seconds")
            with explained(given):
                connection.started(answer)
        except BaseException:
            connection.kill()
            raise
    return Server.of(connection)


def connect(
    path: Word, share: Optional[str] = None, group: Optional[str] = None, *, live: Optional[bool] = None, tls: Optional[Tls] = None
) -> Server:
    """Connects with a front: with the path of its Unix-domain socket, with `tls://HOST:PORT`, or with `tcp://HOST:PORT` on the
    same machine. It raises `OSError` if nobody listens there, or if a certificate is not accepted. `tls` has the files that
    TLS needs: who signs the server's certificate, and this client's own.

    A front gives each connection one session, whatever names are asked for: take one `Session` of it. Its `known_as` is
    the name by which other clients join it. With `share` that is the session of this name, which the front lets several
    clients speak for; `Refused` if it does not. What others cause there is delivered at the next wait. With `group`, which a
    front with workers asks for, that is a session of its own which those of the same group can join.

    The session is live where the front has live sessions: events come unasked, and `wait_for` and `calls` wait for them.
    `live=True` raises `NotLive` where the front has none, and `live=False` does not ask for it: events wait for `spin`.
    """
    connection = SocketConnection(partial(connected, path, tls), share, group, live)
    connection.open()
    return Server.of(connection)
