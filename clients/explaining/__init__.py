"""What the lines that metad writes mean, in plain words: the parts of `explain`.

`held` says what a key may hold, `words` how sentences are put together, `replies` what replies mean, `commands`
which commands there are, `faults` what is wrong with a command, `refusing` what else is said of a refusal, `lines`
which lines the program writes, `objects` and `drawing` what is known of a
session's objects and how it is drawn, `slots` what the slots of a class file do, `knowledge` what a transcript makes known,
`telling` how a transcript is explained, and `program` what the words of the command line ask for. The model of what a session
holds is that of `common`.
"""
