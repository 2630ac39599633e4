"""The tests of `metad`, on the built program.

`python3 -m unittest` at the top of the repository runs all of them, `python3 -m unittest tests.test_rows` those of a
module, and `-k WORD` those with a word in their name. `-v` says of each test how many cases it had. Where one fails,
the others go on, and it is shown with its input and with how what came differs from what was wanted.

- `METAD=PROGRAM` names the program under test, which is else `bin/metad`. `METAD=tests/plain/metad` is the plain program.
- `CASE=WORD` takes only the cases with a word in their name: `CASE=turns_of_none python3 -m unittest tests.test_rows`.
- Random tests try the same cases each time. `SEED=7 make tests` tries others, and `make soak` those of a random seed, which it
  prints. `LONG=1` makes a million commands of sessions.

`test_rows` has worked sessions, `test_random` random sessions, compared with the plain program in `plain`, `test_program` the
program's ends, its pipes and its limits, `test_slice` slices of inputs, `test_memory` refused growths and little memory,
`test_nests` deep calls in little memory, `test_spared` sessions next to one without memory, `test_classes` class files,
`test_clients` what is in `clients`, `test_documents` what documents lead to,
`test_surprises` what docs/QT.md says of Qt, where Qt is installed, `test_phrases` plain English, `test_embedded` the library for programs in C,
`test_machines` several machines behind an
edge, `test_machines_files` what starts them, `test_hosting` what starts fronts on hosts, `test_scaling` sessions on servers
apart, `test_measures` what decides how `make bench` ends, `test_lists` the lists of commands that are generated,
`test_tools` what is in `tools` and the targets of the Makefile, `test_install` what `make install` installs,
`test_package` what is packed, and `test_seeds` that no test depends on chance. `support` is what they share, `generators`
makes what they give, and `preload` has the libraries that are preloaded into the program.

`python3 -m tests.hostile` is not a part of them: it gives the program ten million hostile lines, for an hour or so, or as
many as its words say.
"""

import signal

for _number in (signal.SIGHUP, signal.SIGINT, signal.SIGQUIT, signal.SIGTERM):
    if signal.getsignal(_number) == signal.SIG_IGN:
        # nohup, and a shell for its background jobs, ignore signals: a handler ignores them too, but programs do not inherit it
        signal.signal(_number, lambda *_: None)
