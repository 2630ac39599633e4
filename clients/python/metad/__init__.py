"""A client of `metad`, the server of live objects with the meta-object system of Qt 6.

    import metad

    with metad.start("bin/metad") as server:
        session = server.session("a", on_call=print)
        sender, receiver = session.new("Probe"), session.new("Probe")
        session.connect(sender, "ping()", receiver, "note()")
        session.invoke(sender, "ping()")

`start` starts a server, `inside` opens one in this program by the library libmetad, `connect` reaches one through a front's
socket, and `Server` takes two streams. `start_front` starts a front with its server, and `monitor` reads all that the server of
a front writes. A method of a `Session` is a command of the protocol: it returns the value of the reply, or raises `Refused` with the code. The commands, with
every code and limit, are in docs/PROTOCOL.md. The server checks commands: it refuses an invalid name, the number of an
object that is not there, and a line that is too long. Values that no command can take, as bytes and
NaN, raise `NoValue`, and are not sent.

The callbacks of a session are called with calls of slots and functors, and with warnings, before the call of the command
returns. Behind a front a session is live where the front has live sessions: events come unasked, and `wait_for` and
`calls` of a session wait for them. Elsewhere events wait for `spin`. Commands can be sent without waiting: `Session.send`
returns a `Pending`, and its `result` waits. Replies come in the order of the commands, over the whole server.

`Session.create` makes an object whose properties, signals and slots are reached by their names, see `proxies`. The
same sessions and objects for asyncio are in `metad.aio`.

Needs Python 3.8 or later, and nothing but its standard library.
"""

from .batches import Batch, Promised
from .client import Pending, Server, Session, connect, start
from .codes import ADVICE, BINDING_ERRORS, MEANINGS, advice_on, meaning_of
from .descriptions import (
    BindingInfo,
    ClassInfo,
    ConnectionInfo,
    DeclaredInfo,
    FunctorInfo,
    JoinInfo,
    MethodInfo,
    ObjectInfo,
    PropertyInfo,
    PublicationInfo,
)
from .errors import (
    Ambiguous,
    ClassFileRefused,
    ConnectionClosed,
    LibraryMissing,
    LinesLost,
    MetadError,
    NoMonitors,
    NoRelay,
    NoValue,
    NotAnswered,
    NotFresh,
    NotLive,
    NotStarted,
    OtherSession,
    Refused,
    ServerGone,
    SessionLost,
    StrangeLine,
)
from .expressions import Expression, choose, concat, constant, prop
from .fronts import Front, start_front
from .hearing import Listener, OnCall, OnSpun, OnWarning
from .inside import inside
from .lines import NOBODY, Call, Meta, Spun, Status, Value, Warned
from .monitors import Monitor, monitor
from .programs import Word
from .proxies import Connected, Heard, Method, Property, Proxy, SignalSpy, wait_for
from .shapes import with_relay
from .tls import Tls
from .waiting import Calls

__version__ = "0.8.0"

__all__ = [
    "ADVICE",
    "Ambiguous",
    "BINDING_ERRORS",
    "Batch",
    "BindingInfo",
    "Call",
    "Calls",
    "ClassFileRefused",
    "ClassInfo",
    "Connected",
    "ConnectionClosed",
    "ConnectionInfo",
    "DeclaredInfo",
    "Expression",
    "Front",
    "FunctorInfo",
    "Heard",
    "JoinInfo",
    "LibraryMissing",
    "LinesLost",
    "Listener",
    "MEANINGS",
    "Meta",
    "MetadError",
    "Method",
    "MethodInfo",
    "Monitor",
    "NOBODY",
    "NoMonitors",
    "NoRelay",
    "NoValue",
    "NotAnswered",
    "NotFresh",
    "NotLive",
    "NotStarted",
    "ObjectInfo",
    "OnCall",
    "OnSpun",
    "OnWarning",
    "OtherSession",
    "Pending",
    "Promised",
    "Property",
    "PropertyInfo",
    "PublicationInfo",
    "Proxy",
    "Refused",
    "Server",
    "ServerGone",
    "Session",
    "SessionLost",
    "SignalSpy",
    "Spun",
    "Status",
    "StrangeLine",
    "Tls",
    "Value",
    "Warned",
    "Word",
    "advice_on",
    "choose",
    "concat",
    "connect",
    "constant",
    "inside",
    "meaning_of",
    "monitor",
    "prop",
    "start",
    "start_front",
    "wait_for",
    "with_relay",
]
