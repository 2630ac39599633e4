"""Checks a JSON value against a JSON Schema (draft 2020-12), for the keywords that docs/classes.schema.json uses.

An unknown keyword is an error, so that everything in a schema is checked.
"""

import re

KINDS = {
    "null": lambda value: value is None,
    "boolean": lambda value: isinstance(value, bool),
    "string": lambda value: isinstance(value, str),
    "array": lambda value: isinstance(value, list),
    "object": lambda value: isinstance(value, dict),
    "number": lambda value: is_number(value),
    "integer": lambda value: is_number(value) and value == int(value),
}
SAYS_NOTHING = {"$schema", "$defs", "title", "description", "default"}


def is_number(value):
    return isinstance(value, (int, float)) and not isinstance(value, bool)


def is_same(value, other):
    """Whether two values are one to JSON, for which true is not 1."""
    return isinstance(value, bool) == isinstance(other, bool) and value == other


def when(kind, holds):
    """A keyword that speaks of values of one kind only."""
    return lambda schema, said, value: not KINDS[kind](value) or holds(said, value)


def pattern(said):
    """A pattern as Python has it, for which `$` may match before a last line feed."""
    return re.compile(re.sub(r"\$$", r"\\Z", said), re.ASCII)


class Schema:
    """A schema with the definitions that it refers to."""

    def __init__(self, root):
        self.root = root
        self.keywords = {
            "type": lambda schema, said, value: KINDS[said](value),
            "const": lambda schema, said, value: is_same(said, value),
            "enum": lambda schema, said, value: any(is_same(it, value) for it in said),
            "not": lambda schema, said, value: not self.holds(said, value),
            "allOf": lambda schema, said, value: all(self.holds(it, value) for it in said),
            "anyOf": lambda schema, said, value: any(self.holds(it, value) for it in said),
            "$ref": lambda schema, said, value: self.holds(self.meant(said), value),
            "minimum": when("number", lambda said, value: value >= said),
            "maximum": when("number", lambda said, value: value <= said),
            "pattern": when("string", lambda said, value: pattern(said).search(value)),
            "maxLength": when("string", lambda said, value: len(value) <= said),
            "minItems": when("array", lambda said, value: len(value) >= said),
            "maxItems": when("array", lambda said, value: len(value) <= said),
            "uniqueItems": when("array", lambda said, value: not said or not has_twice(value)),
            "items": when("array", lambda said, value: all(self.holds(said, it) for it in value)),
            "required": when("object", lambda said, value: all(key in value for key in said)),
            "dependentRequired": when("object", self.are_beside),
            "properties": when("object", self.are_held),
            "additionalProperties": self.has_no_others,
        }

    def accepts(self, value):
        return self.holds(self.root, value)

    def holds(self, schema, value):
        """Whether a value is what a part of the schema says."""
        said = [(self.keywords[key], it) for key, it in schema.items() if key not in SAYS_NOTHING]
        return all(keyword(schema, it, value) for keyword, it in said)

    def meant(self, reference):
        """What a reference into the definitions leads to."""
        return self.root["$defs"][reference.removeprefix("#/$defs/")]

    def are_held(self, said, value):
        return all(self.holds(it, value[key]) for key, it in said.items() if key in value)

    @staticmethod
    def are_beside(said, value):
        return all(other in value for key, others in said.items() if key in value for other in others)

    @staticmethod
    def has_no_others(schema, said, value):
        if said is not False:
            raise ValueError("additionalProperties may only be false here")
        return not isinstance(value, dict) or value.keys() <= schema["properties"].keys()

    def parts(self):
        """All schemas that it is made of, each with what leads to it."""
        for name, schema in {"": self.root, **self.root["$defs"]}.items():
            yield from self.parts_of(name, schema)

    def parts_of(self, path, schema):
        yield path, schema
        for key, it in schema.get("properties", {}).items():
            yield from self.parts_of(f"{path}.{key}", it)
        for it in [schema[key] for key in ("items", "not") if key in schema]:
            yield from self.parts_of(path, it)
        for it in [part for key in ("anyOf", "allOf") for part in schema.get(key, [])]:
            yield from self.parts_of(path, it)


def has_twice(values):
    return any(is_same(value, other) for at, value in enumerate(values) for other in values[:at])
