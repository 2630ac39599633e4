"""Class files with faults, each with its kind and its class, bodies of slots, and files of about as many bytes as there may
be."""

from itertools import islice, product

BYTES = 1_048_576
FIRST = "ABCDEFGHIJKLMNOPQRSTUVWXYZ_abcdefghijklmnopqrstuvwxyz"
LATER = FIRST + "0123456789"

# class files, and the first fault of each with its class
FAULTS = [
    ('[]', "C02", 0),
    ('{"classes":1}', "C02", 0),
    ('{"classes":[],"x":1}', "C02", 0),
    ('{"classes":[1]}', "C02", 1),
    ('{"classes":[{"name":"A","super":"B"}]}', "C04", 1),
    ('{"classes":[{"name":"A","super":"B c"}]}', "C02", 1),
    ('{"classes":[{"name":"QObject","super":"B"}]}', "C03", 1),
    ('{"classes":[{"name":"A","super":"QObject"},{"name":"A","super":"A"}]}', "C03", 2),
    ('{"classes":[{"name":"A","super":"QObject","x":1}]}', "C02", 1),
    ('{"classes":[{"name":"A","super":"QObject","slots":[{"sig":"f()","body":{}}]}]}', "C02", 1),
    ('{"classes":[{"name":"A","super":"QObject","properties":[{"name":"p","type":"Int"}]}]}', "C02", 1),
    ('{"classes":[{"name":"A","super":"QObject","signals":["f("]}]}', "C05", 1),
    ('{"classes":[{"name":"A","super":"QObject","signals":["f()"],"slots":[{"sig":"f( void )","body":[]}]}]}', "C06", 1),
    ('{"classes":[{"name":"A","super":"QObject","signals":["objectNameChanged( const QString & )"]}]}', "C06", 1),
    ('{"classes":[{"name":"A","super":"QObject","properties":[{"name":"objectName","type":"int"}]}]}', "C06", 1),
    ('{"classes":[{"name":"A","super":"QObject","signals":["s(int)"],"properties":[{"name":"p","type":"bool","notify":"s(int)"}]}]}', "C07", 1),
    ('{"classes":[{"name":"A","super":"QObject","properties":[{"name":"p","type":"bool","notify":"deleteLater()"}]}]}', "C07", 1),
    ('{"classes":[{"name":"A","super":"QObject","properties":[{"name":"p","type":"bool","notify":"s"}]}]}', "C07", 1),
    ('{"classes":[{"name":"A","super":"QObject","slots":[{"sig":"f()","body":[{"set":"p","to":{"arg":0}}]}]}]}', "C08", 1),
]

# bodies of a slot with two parameters, and what is no body of it
BODIES = [
    '[]',
    '[{"set":"x","to":{"arg":0}}]',
    '[{"connect":"ping()","of":"sender","to":"self","method":"late()"},{"disconnect":"ping()","of":"sender","to":"self","method":"note()"}]',
    '[{"emit":"ping()","of":"sender","args":[]}]',
    '[{"delete":"sender"},{"set":"objectName","of":"sender","to":{"const":"x"}}]',
    '[{"setParent":null,"of":{"child":"c"}},{"delete":"sender"}]',
    '[{"delete":"self"}]',
    '[{"when":{"<":[{"arg":0},{"const":0}]},"then":[{"set":"x","to":{"const":0}}],"else":[{"when":{"<":[{"const":100},{"arg":0}]},"then":[{"set":"x","to":{"const":100}}],"else":[{"set":"x","to":{"arg":0}}]}]}]',  # noqa: E501
    '[{"set":"x","to":{"arg":1}}]',
    '[{"connect":"f()","to":"self","method":"g()","type":"queued","single":true}]',
    '[{"disconnect":null}]',
]

NO_BODIES = [
    'null',
    '{"delete":"self"}',
    '[1]',
    '[{}]',
    '[{"of":"self"}]',
    '[{"set":"x"}]',
    '[{"set":"1","to":{"const":1}}]',
    '[{"set":"x","to":{"arg":2}}]',
    '[{"set":"x","to":{"arg":-1}}]',
    '[{"emit":"f()"}]',
    '[{"emit":"f","args":[]}]',
    '[{"connect":"f()","to":"self"}]',
    '[{"connect":"f()","method":"g()"}]',
    '[{"connect":"f()","to":"self","method":"g()","type":"blocking"}]',
    '[{"connect":"f()","to":"self","method":"g()","unique":1}]',
    '[{"disconnect":null,"method":"g()"}]',
    '[{"disconnect":null,"to":null}]',
    '[{"delete":{"child":"c","of":"self"}}]',
    '[{"delete":"self","of":"self"}]',
    '[{"deleteLater":0}]',
    '[{"block":null}]',
    '[{"setParent":"top"}]',
    '[{"when":{"const":true}}]',
    '[{"when":{"const":true},"then":[],"else":null}]',
    '[{"when":{"const":true},"then":[{"set":"x","to":{"arg":2}}]}]',
    '[{"set":"x","to":{"const":1},"emit":"f()","args":[]}]',
]


def class_of(signals):
    """A class file with one class that has these signals."""
    listed = ",".join(f'"{signal}"' for signal in signals)
    return f'{{"classes":[{{"name":"A","super":"QObject","signals":[{listed}]}}]}}'


def signals():
    """As many different signals as a class file has room for."""
    names = map("".join, product(FIRST, LATER, LATER))
    room = (BYTES - len(class_of([]))) // len('"abc()",')
    return [f"{name}()" for name in islice(names, room)]


def class_with(body):
    """A class file with one class that has a slot of this body."""
    return f'{{"classes":[{{"name":"A","super":"QObject","slots":[{{"sig":"f(int,int)","body":{body}}}]}}]}}'


def small_cases():
    """Class files by their text, each with its kind of fault or None, and the class that is at fault."""
    yield from FAULTS
    yield from ((class_with(body), None, 0) for body in BODIES)
    yield from ((class_with(body), "C08" if body.startswith("[") else "C02", 1) for body in NO_BODIES)


def all_files():
    """Class files, each with what it is, its kind of fault or None, and the class that is at fault."""
    yield from ((text, text, kind, number) for text, kind, number in small_cases())
    many = signals()
    yield f"{len(many)} signals", class_of(many), "C09", 1
    yield f"{len(many)} signals, the last two equal", class_of(many[:-1] + many[-2:-1]), "C06", 1
    yield f"{BYTES} bytes", class_of(["f()"]).ljust(BYTES), None, 0
    yield f"{BYTES + 1} bytes", class_of(["f()"]).ljust(BYTES + 1), "C09", 0
