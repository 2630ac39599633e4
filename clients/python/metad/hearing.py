"""What a session hears: calls of slots and functors, and warnings; and who receives them."""

from __future__ import annotations

from collections import deque
from operator import index
from typing import Callable, Deque, Dict, List, Optional, Sequence, Tuple
from weakref import ref

from .lines import Call, Spun, Told, Warned

OnCall = Callable[[Call], object]
"""Receives calls."""

OnWarning = Callable[[Warned], object]
"""Receives warnings."""

OnSpun = Callable[[Spun], object]
"""Is called with the result of a `spin` of the front."""

Listening = Callable[..., object]
"""Is called with calls, with warnings, or with the result of a `spin`."""


class Listener:
    """A function that receives the calls of one slot of one object. It is made by `on` of a session."""

    def __init__(self, listeners: Listeners, object: int, method: str, told: OnCall) -> None:
        self._listeners = listeners
        self._of = (object, method)
        self.told = told

    def stop(self) -> None:
        """It receives no more. Stopping again does nothing."""
        left = [it for it in self._listeners.get(self._of, []) if it is not self]
        if left:
            self._listeners[self._of] = left
        else:
            self._listeners.pop(self._of, None)


Listeners = Dict[Tuple[int, str], List[Listener]]
"""Those that listen, by the slot that they listen to."""


class Follower:
    """The calls of a session since this was made, until they are taken."""

    def __init__(self, session: Hearing) -> None:
        self._came: Deque[Call] = deque()
        session._follow(self)

    def take(self, call: Call) -> None:
        """Keeps a call."""
        self._came.append(call)

    def _has_come(self) -> bool:
        """Whether there is a call that was not taken yet."""
        return bool(self._came)


class Hearing:
    """A session by its name, as a receiver of calls and warnings."""

    def __init__(self, name: str) -> None:
        self.name = name
        """The name that the commands of this session are given by."""
        self.known_as: Optional[str] = None
        """The name that its lines have, and by which others join it: behind a front the one that the front gave. None
        before its first answer."""
        self.on_call: Optional[OnCall] = None
        """Told of the calls of the session's slots and functors; may be set at any time."""
        self.on_warning: Optional[OnWarning] = None
        """Told of the session's warnings; may be set at any time."""
        self.on_spun: Optional[OnSpun] = None
        """Is called, in a live session, with the result of each `spin` that the front gave automatically and that
        delivered events; may be set at any time."""
        self.receivers: Tuple[ref[Hearing], ...] = (ref(self),)
        """This session, as the receiver of what its commands cause."""
        self._ending: Optional[str] = None  # how replies to it end, once `known_as` is known
        self._listeners: Listeners = {}
        self._followers: Tuple[ref[Follower], ...] = ()

    def on(self, object: int, method: str, told: OnCall) -> Listener:
        """Has a function told of the calls of a slot of an object, or of a functor for it, until that is stopped.

        The method is given as `meta` writes it, in its normal text. The function is called after `on_call`, and after
        those that have listened for longer.
        """
        listener = Listener(self._listeners, index(object), method, told)
        of = (index(object), method)
        self._listeners[of] = [*self._listeners.get(of, []), listener]
        return listener

    def listening_to(self, what: Told) -> Sequence[Listening]:
        """Who receives a call or a warning, in this order."""
        if isinstance(what, Warned):
            return () if self.on_warning is None else (self.on_warning,)
        if not isinstance(what, Call):
            return () if self.on_spun is None else (self.on_spun,)
        first = () if self.on_call is None else (self.on_call,)
        followers = [it for it in (follower() for follower in self._followers) if it is not None]
        listeners = self._listeners.get((what.object, what.method), [])
        return (*first, *(it.take for it in followers), *(it.told for it in listeners))

    def _follow(self, follower: Follower) -> None:
        """Adds a receiver of all calls, which stays as long as somebody holds it."""
        self._followers = (*(it for it in self._followers if it() is not None), ref(follower))

    def _forget_listeners(self) -> None:
        """Nobody listens to slots of single objects any more."""
        self._listeners.clear()
