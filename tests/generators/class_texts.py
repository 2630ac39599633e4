"""Random texts of class files.

They are class files of random sessions and those of the other lists, as they are or changed: values put in for others,
taken out, put twice and renamed, keys that occur twice, white space and escapes, numbers in and out of form, arrays in one
another about as deep as JSON is read, and bytes that are changed, left out, put in or repeated.
"""

import copy
import json
from functools import lru_cache

from . import class_faults, signals
from .chance import BYTES, LITERALS, NUMBERS, PIECES, TEXTS
from .class_files import NO_SIGNATURES, SIGNATURES, WRONG_ACTIONS, WRONG_EXPRESSIONS, Changes, right_files, wrong_files
from .spelling import escaped, spaced

DEPTH = 127
SMALL = 20_000  # bytes of a file that is changed
TYPES = ("bool", "int", "uint", "qlonglong", "qulonglong", "QString", "Int", "")
NAMES = ("Lamp", "Torch", "Switch", "QObject", "Nope", "a b", "x", "level", "objectName", "n" * 64, "n" * 65)
TOKENS = ("[", "]", "{", "}", ":", ",")


class Texts(Changes):
    """Random class files, and changes of them."""

    def values(self):
        """What is put in for a value."""
        return self.choice((self.VALUES, SIGNATURES, NO_SIGNATURES, WRONG_ACTIONS, WRONG_EXPRESSIONS, TYPES, NAMES))

    def replace(self, holder, at):
        holder[at] = copy.deepcopy(self.choice(self.values()))

    def changed(self, classes):
        return super().changed(classes) if isinstance(classes, (dict, list)) and classes else classes

    def declared_otherwise(self, classes):
        """A class file with another name, superclass, signal or property in one of its classes."""
        classes = copy.deepcopy(classes)
        if not isinstance(classes, dict) or not isinstance(classes.get("classes"), list):
            return classes
        held = [it for it in classes["classes"] if isinstance(it, dict)]
        if not held:
            return classes
        changed = self.choice(held)
        names = [it.get("name") for it in held] + list(NAMES)
        methods = [*SIGNATURES, *signals.SIGNALS, *signals.SLOTS, "destroyed()", "deleteLater()"]
        notify = self.choice(({}, {"notify": self.choice(methods)}))
        declared = {"name": self.choice(NAMES), "type": self.choice(TYPES[:6]), **notify}
        many = [f"n{at}()" for at in range(self.choice((1, 1, 1, 240, 253, 254)))]
        key, value = self.choice((
            ("name", self.choice(names)), ("super", self.choice(names)), ("properties", [declared]),
            ("signals", self.sample(methods, 4)), ("signals", [*signals.SIGNALS, *many]),
        ))
        changed[key] = value if isinstance(value, str) else [*self.choice(([], listed(changed.get(key)))), *listed(value)]
        return classes

    def tokens(self, value):
        """The tokens of a value; members are now and then written twice, with another value before the one that counts."""
        if isinstance(value, dict):
            members = [it for pair in value.items() for it in self.members(*pair)]
            return ["{", *joined(members), "}"]
        if isinstance(value, list):
            return ["[", *joined([self.tokens(it) for it in value]), "]"]
        return [json.dumps(value, ensure_ascii=self.random() < 0.5)]

    def members(self, key, value):
        if self.random() < 0.01:
            yield [json.dumps(key), ":", json.dumps(self.choice((1, "x", None, [], {})))]
        yield [json.dumps(key), ":", *self.tokens(value)]

    def odd(self, tokens):
        """With a token that is spelled otherwise, well or badly."""
        at = self.randrange(len(tokens))
        if tokens[at] in TOKENS:
            return tokens
        nested = DEPTH + self.randint(-8, 2)
        texts = (*(f'"{text}"' for text in TEXTS), "'x'")
        spelled = self.choice((NUMBERS, texts, LITERALS, ["[" * nested + "]" * nested]))
        return [*tokens[:at], self.choice(spelled), *tokens[at + 1 :]]

    def spelled(self, classes):
        """The text of a class file."""
        tokens = self.tokens(classes)
        if self.random() < 0.15:
            tokens = self.odd(tokens)
        for way in (escaped, spaced):
            if self.random() < 0.15:
                tokens = way(tokens, self)
        text = "".join(tokens).encode("utf-8", "surrogatepass")
        return self.damaged(text) if self.random() < 0.1 else text

    def damaged(self, text):
        """With bytes changed, left out, put in or repeated."""
        at = self.randrange(len(text) + 1)
        put = bytes([self.choice((*PIECES, *BYTES))])
        return self.choice((
            text[:at] + put + text[at + 1 :], text[:at] + text[at + 1 :], text[:at] + put + text[at:], text[:at],
            text[:at] + text[max(0, at - 3) :], b"\xef\xbb\xbf" + text,
        ))


def joined(parts):
    """The tokens of parts with commas between them."""
    tokens = [token for part in parts for token in (",", *part)]
    return tokens[1:]


def listed(value):
    return value if isinstance(value, list) else []


@lru_cache(maxsize=None)
def small_files():
    """The small class files of the other lists."""
    listed_files = [classes for _, classes in (*right_files(), *wrong_files())]
    bodies = [json.loads(class_faults.class_with(body)) for body in (*class_faults.BODIES, *class_faults.NO_BODIES)]
    return [classes for classes in (*listed_files, *bodies) if len(json.dumps(classes)) < SMALL]


def text_by_chance(seed):
    """The text of a class file."""
    chance = Texts(seed)
    classes = chance.choice(small_files())
    if chance.random() < 0.6:
        classes = {"classes": list(signals.Chance(seed).classes())[: chance.randint(1, 3)]}
    for _ in range(chance.choice((0, 0, 1, 2))):
        classes = chance.declared_otherwise(classes)
    for _ in range(chance.choice((0, 0, 0, 1, 1, 2, 4))):
        classes = chance.changed(classes)
    return chance.spelled(classes)
