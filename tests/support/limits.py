"""The limits of the program, as docs/PROTOCOL.md has them."""

from tools.protocol import limit

LINE_BYTES = limit("bytes of a line of input")  # without its LF
OF_SESSION = ("objects", "connections", "events", "bindings", "nested groups", "publications", "joins")
OBJECTS, CONNECTIONS, EVENTS, BINDINGS, GROUPS, PUBLICATIONS, JOINS = (limit(f"{it} of a session") for it in OF_SESSION)
LEVELS = limit("levels of a tree of objects")
NESTED_SIGNALS = limit("levels of nested signals")
TEXT_BYTES = limit("bytes of a text")
DYNAMIC_PROPERTIES = limit("dynamic properties of an object")
PARAMETERS = limit("parameters of a signature")
FORMS = limit("objects of the forms above in an expression")
TURNS = 10_000  # of a command, where nothing else is said
