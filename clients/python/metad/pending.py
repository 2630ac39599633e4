"""Answers to commands that were sent, whether they are waited for or awaited."""

from __future__ import annotations

from typing import Any, Generic, Type, TypeVar

from .asking import Asked
from .lines import command_line
from .pairing import Answer

SessionKind = TypeVar("SessionKind")
PendingKind = TypeVar("PendingKind", bound="BasePending[Any]")


class BasePending(Generic[SessionKind]):
    """The answer to a command that was sent."""

    def __init__(self, session: SessionKind, asked: Asked[Any], answer: Answer) -> None:
        self._session: Any = session
        self._asked = asked
        self._answer = answer

    @classmethod
    def given(cls: Type[PendingKind], session: Any, asked: Asked[Any]) -> PendingKind:
        """Gives a command of a session; returns what will have its answer."""
        line, answer = command_line(session.name, asked.do, asked.keys), Answer(session)
        pending = cls(session, asked, answer)
        session.server.connection.give(answer, line)
        return pending

    def done(self) -> bool:
        """Whether the answer has come, or will not come any more. It does not wait, and tells nothing."""
        if not self._answer.has_come():
            self._session.server.connection.look()
        return self._answer.has_come()
