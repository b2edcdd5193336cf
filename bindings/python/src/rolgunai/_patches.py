"""What is put in the place of something else, until it is taken back."""

from __future__ import annotations

from collections.abc import Iterable
from typing import Any, NamedTuple

_MISSING: Any = object()


class Patch(NamedTuple):
    """An attribute of an object, or an item of a dict, and what it is to be."""

    where: Any
    name: str
    new: Any

    def now(self) -> Any:
        """What is there."""
        if isinstance(self.where, dict):
            return self.where.get(self.name, _MISSING)
        return getattr(self.where, self.name, _MISSING)

    def put(self, value: Any) -> None:
        """Puts a value there."""
        if isinstance(self.where, dict):
            self.where[self.name] = value
        else:
            setattr(self.where, self.name, value)

    def remove(self) -> None:
        """Leaves nothing there."""
        if isinstance(self.where, dict):
            del self.where[self.name]
        else:
            delattr(self.where, self.name)


class Patches:
    """Those that were made, all of them or none."""

    def __init__(self, patches: Iterable[Patch]) -> None:
        self._made: list[tuple[Patch, Any]] = []
        try:
            for patch in patches:
                old = patch.now()
                if old is not patch.new:
                    self._made.append((patch, old))
                    patch.put(patch.new)
        except BaseException:
            self.take_back()
            raise

    def take_back(self) -> None:
        """Puts back what was there; not where somebody else has put something there since."""
        while self._made:
            patch, old = self._made.pop()
            if patch.now() != patch.new:
                continue
            if old is _MISSING:
                patch.remove()
            else:
                patch.put(old)
