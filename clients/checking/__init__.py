"""What is wrong in class files, and where: the parts of `check`.

`nodes` says what a JSON text holds and where, `reading` reads it as metad does, `signatures` reads names and signatures,
`findings` what is said of a file and which fault metad names, `words` how that is said, `forms` the keys and values of
the parts of a file, `bodies` the bodies of slots, `declaring` what classes declare, `mistakes` what loads and is surely
not meant, `files` how a file is checked, and `program` what the words of the command line ask for.
"""
