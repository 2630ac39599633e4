"""The plain program, which is written from the rules and compared with the built one: `values`, `expressions`, `bindings`
and `classes`, what happens in a `session`, what its `commands` do and its `queries` read, the `world` of all sessions, the
answers where one is `failing`, in `lines` what a line of input asks, in `slicing` which lines decide the output of one
session, and in `serving` the program to be run in the place of the built one."""
