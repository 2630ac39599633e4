"""What the tools share: how their words are read (`options`), their files (`files`), and how they end (`ending`).

And one model of what a session of a server holds. `asked` says what a command names. `objects` is what is known of the objects,
`values` of their properties and bindings, `connections` of their connections, and `holding` of the session as a whole. What a
command changes by its reply is said once: `changes` for the objects, `following` for the slots that it calls, `heeding` for all
else, and `told` for commands that only read. `explain` and the shell keep the objects, `inspect` keeps all.
"""
