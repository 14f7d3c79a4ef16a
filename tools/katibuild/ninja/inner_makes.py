"""Commands that run make: all makes of a build share as many jobs as there are processors."""
from __future__ import annotations

from dataclasses import replace
from typing import Iterator

from ..ask.question import runs_make
from ..graph import scripts
from ..graph.node import Command, Graph
from .text import Block, NinjaText

POOL = "kati_not_parallel"
POOL_LINES = (f"pool {POOL}", " depth = 1")
# Each command takes a token, and gives it back when it ends; its make takes further tokens, as make's own jobserver has
# it. A command that was killed has kept tokens: who finds that nobody else has the FIFO locked fills it again. A wait
# ends after two seconds and looks again.
TOKENS = """\
#!/bin/sh
# kati-build: runs a command whose make shares its jobs with all makes of this build
jobs=.kati/jobs
count=${KATI_JOBS:-$(getconf _NPROCESSORS_ONLN)}
{ [ -p $jobs ] || mkfifo $jobs || [ -p $jobs ] || { rm -rf $jobs; mkfifo $jobs; }; } 2>/dev/null
if ! { [ -p $jobs ] && [ -w $jobs ] && [ "$count" -gt 0 ] && command -v flock; } >/dev/null 2>&1; then exec "$@"; fi
exec 8<>$jobs
while :; do
    if flock -n -x 8; then
        dd if=$jobs iflag=nonblock bs=65536 count=1 >/dev/null 2>&1
        printf "%${count}s" '' | tr ' ' + >&8
    fi
    flock -s 8
    [ "$(timeout 2 dd bs=1 count=1 <&8 2>/dev/null)" ] && break
    flock -u 8
    sleep 0.1
done
trap 'printf + >&8' EXIT
trap 'exit 130' INT TERM HUP
variables=
case " $MAKEFLAGS" in *" -- "*) variables=" -- ${MAKEFLAGS#*-- }" MAKEFLAGS=${MAKEFLAGS%%-- *} ;; esac
MAKEFLAGS="${MAKEFLAGS% } -j --jobserver-auth=8,8$variables" "$@"
"""


def with_tokens(graph: Graph) -> Graph:
    """The graph whose commands that run make wait for a job, and share jobs."""
    name, data = script = scripts.named(TOKENS)
    path = scripts.path_of(script)
    callers = {output: node._replace(commands=tuple(with_script(one, path) for one in node.commands))
               for output, node in graph.nodes.items() if not node.is_left
               for command in node.commands if runs_make(command.text)}
    return replace(graph, nodes={**graph.nodes, **callers},
                   scripts={**graph.scripts, name: data}) if callers else graph


def with_script(command: Command, path: str) -> Command:
    """A command that the script runs, if it runs make."""
    return command._replace(shell=(path, *command.shell)) if runs_make(command.text) else command


def blocks(text: NinjaText, graph: Graph) -> Iterator[Block]:
    """By `.NOTPARALLEL` one command at a time."""
    if graph.is_not_parallel:
        yield from (Block(one.line, (("pool", POOL),)) for one in text.statements if not one.is_phony)
