"""kati-build --ask: builds a GNU makefile with Ninja, from the graph that GNU make itself gives.

The rooms, each of which imports those above it alone:

    base     files, programs, messages and signals; no makefile
    ask      runs GNU make twice. `reading` has make bring its makefiles up to date; `asking` has make say what it would
             run. A recorder is make's shell, so that no recipe runs. Depfiles are `hidden` from make meanwhile.
    graph    `walk` makes nodes of make's answer, `groups` and `order` add what Ninja does not know, and `writer` writes
             them as an explicit makefile.
    ninja    `kati` has the verified translator make Ninja's text of that makefile, `blocks` adds keys to the text, and
             `log` and `as_made` say what counts as made.
    keep     the folder .kati: `record` and `stale` say whether make must be read again, `translate` goes through all
             stages once, `turns` knows what make and users have done since, and `rounds` translates and runs Ninja.
    command  the command line

To see how a run goes, begin with keep/rounds.py (`build`), then keep/translate.py (`translate`).
"""
