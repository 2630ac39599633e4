"""A line editor over a server: the parts of `shell`.

`link` reaches the server and keeps what it was given, `reading` takes lines apart, `infix` reads expressions as one
writes them, `known` has what is known of the objects of a session, `scene` finds objects and methods by their names,
`forms` has the short forms of commands, `looking` lists what is there, `saying` how answers are said, `shell` does a line,
`completing` completes one and keeps the history, `prompting` asks for lines at a terminal, `arriving` says what comes
unasked meanwhile, and `program` is the command line.
"""
