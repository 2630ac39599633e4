"""A short record in place of a group's long one: the parts of `compact`.

`record` reads and writes records, `serving` runs a server, `contents` reads what sessions hold and makes the commands that
make it again, `groups` finds groups that hold back changes, `trying` finds out whether two servers are in the same state,
`leaving_out` leaves out the commands of sessions that are over, and `program` has the command line.
"""
