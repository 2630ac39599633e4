"""Which commands of a record can affect the output of a session: the parts of `slice`.

`record` reads a record with the answers to its lines, and marks those that a slice keeps, `running` finds `metad` and runs
it, `advising` says why a record cannot be sliced as requested, `comparing` says whether a session receives the same from
its slice, `showing` writes all that, and `program` has what the words of the command line ask for.
"""
