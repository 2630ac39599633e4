"""The objects of a session as a transcript shows them, and which of them a refusal is about."""

from __future__ import annotations

from typing import Collection

from common import objects
from common.objects import ROOT

from .refusing import missing_said

__all__ = ["ROOT", "Objects"]


class Objects(objects.Objects):
    """What is known of the objects of a session, those that have gone among them."""

    def missing(self, numbers: Collection[int]) -> str:
        """Which of these objects do not exist, when at least one does not."""
        made = self.classes.keys()
        missing = [it for it in numbers if it in self.gone or it not in made and not self.has_earlier]
        if missing:
            return " and ".join(missing_said(it, it in made) for it in missing)
        may = [it for it in numbers if it not in self.sure] or list(numbers)
        return missing_said(may[0], may[0] in made) if len(may) == 1 else f"there is no object {' or no object '.join(map(str, may))}"
