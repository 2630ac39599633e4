"""Who holds a connection, and has to close it."""

from __future__ import annotations

import json
import warnings
from os import fspath
from pathlib import Path
from typing import Dict, List, Optional

from .connection import Connection
from .errors import NoValue
from .lines import Value
from .programs import Word
from .shapes import Shape

START_SECONDS = 30.0  # in which a server has to answer its first line


class Holder:
    """Holds a connection that is open. Where it is not closed, it warns when nobody holds it any more, and hangs up."""

    _is_closed = True  # up to its first connection

    def _hold(self, connection: Connection) -> None:
        self.connection = connection
        """The connection with the server."""
        self.shapes: Dict[str, Shape] = {}
        """What there is in classes that were asked for."""
        self._is_closed = False

    def __del__(self) -> None:
        if not self._is_closed:
            self._is_closed = True
            self.connection.abandon()
            warnings.warn(f"{self!r} was not closed", ResourceWarning, source=self)

    @property
    def is_live(self) -> bool:
        """Whether events come unasked. A session that has failed is not live any more, not even after its `reset`."""
        return self.connection.is_live

    def _hang_up(self) -> None:
        """Ends the server's input after all that was given."""
        self._is_closed = True
        self.connection.hang_up()


def class_words(classes: Optional[Dict[str, Value]], folder: str) -> List[Word]:
    """The words that name a class file with these classes, which is put into a folder; none without classes. `NoValue` where
    they cannot be written as JSON."""
    if classes is None:
        return []
    path = Path(folder, "classes.json")
    try:
        path.write_text(json.dumps(classes, allow_nan=False))
    except (TypeError, ValueError, RecursionError) as error:
        raise NoValue(f"the classes cannot be written as JSON: {error}") from None
    return [fspath(path)]
