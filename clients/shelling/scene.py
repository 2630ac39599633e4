"""Objects, methods and properties as a line names them, and what the server knows of them."""

from __future__ import annotations

from typing import Any, Callable, Dict, List, Mapping, Optional, Sequence, Tuple

from common.kinds import RANGES

from .known import Known
from .reading import ARROW, METHOD, NAME, OBJECT, Mistake, Words, types_in

Meta = Mapping[str, Any]

BY_ITSELF = ("int", "qlonglong", "qulonglong")  # a whole number has the first of these types that holds it


class Scene:
    """The session that a line is for, and the classes."""

    def __init__(
        self, known: Known, meta_of: Callable[[str], Optional[Meta]], class_of: Callable[[int], Optional[str]]
    ) -> None:
        self.known = known
        self.meta_of = meta_of
        self.class_of = class_of

    def object_at(self, words: Words) -> int:
        """The object that the next word names."""
        return self.known.number_of(words.take(OBJECT, "an object, by its name or its number"))

    def name_at(self, words: Words) -> Optional[str]:
        """What is to be called by another name, where the line says so."""
        if words.maybe_word("as") is None:
            return None
        name = words.take(NAME, "a name")
        if name in ("self", "null"):
            raise Mistake(f"`{name}` cannot be a name")
        return name

    def end_at(self, words: Words) -> Tuple[int, Optional[str]]:
        """An object, and its method where one is named."""
        number = self.object_at(words)
        return number, self.method_at(words, number) if words.rest.startswith(".") else None

    def method_of_object_at(self, words: Words) -> Tuple[int, str]:
        """An object and its method."""
        number = self.object_at(words)
        return number, self.method_at(words, number)

    def property_at(self, words: Words) -> Tuple[int, str]:
        """An object and its property."""
        number = self.object_at(words)
        words.take(r"\.", "`.` and a property")
        return number, words.take(NAME, "a property")

    def method_at(self, words: Words, number: int) -> str:
        """The signature of a method: as it is written, or the only one of its name."""
        words.take(r"\.", "`.` and a method")
        text = words.take(METHOD, "a method")
        return text if "(" in text else self.only_method(number, text)

    def target_at(self, words: Words) -> Tuple[int, str]:
        """What follows an arrow."""
        words.take(ARROW, "`->`")
        return self.method_of_object_at(words)

    def methods(self, number: int) -> List[str]:
        """The signatures of an object's methods, as far as its class is known."""
        return self.members(number, "methods")

    def members(self, number: int, key: str) -> List[str]:
        """What the class of an object has. The server is asked for the class of one that was not made here."""
        class_name = self.known.classes.get(number) or self.class_of(number)
        meta = None if class_name is None else self.meta_of(class_name)
        return [] if meta is None else [str(it) for it in meta[key]]

    def only_method(self, number: int, name: str) -> str:
        """The one method of this name."""
        methods = self.methods(number)
        found = [it for it in methods if it.split("(")[0] == name]
        if len(found) == 1 or not methods:
            return found[0] if found else f"{name}()"
        label = self.known.label(number)
        if found:
            raise Mistake(f"{label} has several methods {name}: {', '.join(found)}; write which")
        raise Mistake(f"{label} has no method {name}; it has {', '.join(methods)}")

    def method_for(self, number: int, name: str, values: Sequence[Any]) -> str:
        """The method of this name that takes these values; otherwise one that would."""
        named = [it for it in self.methods(number) if it.split("(")[0] == name]
        many = [it for it in named if len(types_of(it)) == len(values)]
        fitting = [it for it in many if all(map(takes, types_of(it), values))]
        if len(fitting) > 1:
            own = signature_for(name, values)
            fitting = [own] if own in fitting else fitting
        if len(fitting) > 1:
            raise Mistake(f"{', '.join(fitting)} take these; write `invoke {self.known.label(number)}.{fitting[0]} [..]`")
        return (fitting or many or named or [signature_for(name, values)])[0]


def types_of(signature: str) -> List[str]:
    """The types of the parameters of a signature."""
    return types_in(signature[signature.index("(") :])


def takes(type_name: str, value: Any) -> bool:
    """Whether a value is one of a type."""
    if isinstance(value, bool):
        return type_name == "bool"
    if isinstance(value, int) and type_name in RANGES:
        low, high = RANGES[type_name]
        return low <= value <= high
    return isinstance(value, str) and type_name == "QString"


def type_of(value: Any) -> str:
    """The type that a value has on its own."""
    if isinstance(value, bool):
        return "bool"
    return next((it for it in BY_ITSELF if takes(it, value)), "QString")


def signature_for(name: str, values: Sequence[Any]) -> str:
    """The signature that takes these values."""
    return f"{name}({','.join(map(type_of, values))})"


def ends(number: int, method: str, keys: Tuple[str, str]) -> Dict[str, Any]:
    """An object and its method, at these keys."""
    return {keys[0]: number, keys[1]: method}
