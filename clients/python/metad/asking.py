"""What is asked of a server, and the methods that ask it: of sessions that wait for the reply, of those that await it, and of
batches."""

from __future__ import annotations

import inspect
from typing import TYPE_CHECKING, Any, Callable, Coroutine, Dict, Generic, TypeVar

from .lines import Value

if TYPE_CHECKING:
    from typing_extensions import Concatenate, ParamSpec, Protocol

    from .batches import Promised

    Given = ParamSpec("Given")

    class Asks(Protocol):
        """Whoever gives a command and waits for the reply."""

        def ask(self, asked: Asked[Replied]) -> Replied: ...

    class Awaits(Protocol):
        """Whoever gives a command, so that the reply is awaited."""

        async def ask(self, asked: Asked[Replied]) -> Replied: ...

    class Gathers(Protocol):
        """Whoever adds a command to others, so that the reply comes later."""

        def ask(self, asked: Asked[Replied]) -> Promised[Replied]: ...


Replied = TypeVar("Replied")


class Asked(Generic[Replied]):
    """A command that is to be given, by its word and its keys; its reply is of a kind that is known."""

    __slots__ = ("do", "keys")

    def __init__(self, do: str, **keys: Value) -> None:
        self.do = do
        self.keys: Dict[str, Value] = keys


def waiting(build: Callable[Given, Asked[Replied]]) -> Callable[Concatenate[Asks, Given], Replied]:
    """The method that gives a command and waits for the reply."""

    def method(self: Asks, /, *args: Given.args, **keys: Given.kwargs) -> Replied:
        return self.ask(build(*args, **keys))

    make_method(method, build)
    return method


def awaiting(build: Callable[Given, Asked[Replied]]) -> Callable[Concatenate[Awaits, Given], Coroutine[Any, Any, Replied]]:
    """The method that gives a command and awaits the reply."""

    async def method(self: Awaits, /, *args: Given.args, **keys: Given.kwargs) -> Replied:
        return await self.ask(build(*args, **keys))

    make_method(method, build)
    return method


def batching(build: Callable[Given, Asked[Replied]]) -> Callable[Concatenate[Gathers, Given], Promised[Replied]]:
    """The method that adds a command to a batch, and returns what will have the reply."""

    def method(self: Gathers, /, *args: Given.args, **keys: Given.kwargs) -> Promised[Replied]:
        return self.ask(build(*args, **keys))

    make_method(method, build, "Promised[{}]")
    return method


def make_method(method: Callable[..., Any], build: Callable[..., Any], replied: str = "{}") -> None:
    """Gives a method that gives a command the name, the parameters and the text of what builds the command."""
    built = inspect.signature(build)
    own = inspect.Parameter("self", inspect.Parameter.POSITIONAL_OR_KEYWORD)
    parameters = [own, *built.parameters.values()]
    reply = replied.format(built.return_annotation[len("Asked[") : -len("]")])
    setattr(method, "__signature__", built.replace(parameters=parameters, return_annotation=reply))
    method.__name__, method.__doc__ = build.__name__, build.__doc__


def given(**keys: Value) -> Dict[str, Value]:
    """The keys that have a value."""
    return {key: value for key, value in keys.items() if value is not None}
