"""A server as a page in the browser: the parts of `inspect`.

`feed` takes what the front tells and asks it for commands, `replay` takes a record in its place. `world` is all that is
known of a server, `session` of one session, by the model of `common`, `entries` the lines of each command. `classes`
reads the class file, `effects` says what commands and slots do by it, `chains` what has led to each call, `learning` what a
command and its calls make known, `evaluating` works out the values of bindings, `forms` spells expressions. `graphs` says what hangs together, and
`drawing` where it is drawn: by `dot`, or by the `layers` of our own. `looking` asks sessions for what is not known.
`views`, `happened`, `timeline` and `searching` say what the page shows, `naming` how names are ordered, `pages` what the page
may ask for, `answers` keeps answers for all browsers, `allowed` says which commands the page may give. `serving` serves it,
`connections` bounds what browsers may take of that, and `program` has what the words of the command line ask for. `page` holds
the files of the page itself: `app` is the whole, `location` what is chosen, `list` and `drawing` the two ways to show much,
`editing` the fields, and the others have the names of what they show.
"""
