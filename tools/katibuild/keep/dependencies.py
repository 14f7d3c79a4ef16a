"""What make's answer depends on: files that were opened, names in folders, variables and git commands."""
from __future__ import annotations

import os
import re
from typing import Dict, Iterable, Iterator, List, Mapping, NamedTuple, Optional, Set, Tuple

from ..ask.answer import Answer
from ..ask.question import Question
from ..base import files
from ..base.files import is_below, ninja_name
from . import environment
from .record import Dependencies, FileState, FolderState
from .stale import OWN, Counting, file_state, folder_state

VERSIONED = frozenset((".git", ".hg", ".svn", ".bzr"))
HIDDEN = re.compile(r"(?<![\w)}%*.])\.[A-Za-z_][\w.+-]*")
ABOVE = re.compile(r"(?<![\w.])(?:\.\./)+[\w.+@-]+(?:/[\w.+@-]+)*")
ABSOLUTE = re.compile(r"(?<![\w.$(){}/-])/[\w.+@-]+(?:/[\w.+@-]+)*")
LISTS_HIDDEN = re.compile(r"(?:^|[\s;&|(`/])(?:find\s|ls\s+(?:-\w*\s+)*-\w*[aA])|(?:^|[\s/'\"])\.\*")
PART = "the kernel watches no more folders (fs.inotify.max_user_watches): each file of the tree counts"
LARGEST = 1 << 22   # bytes of a makefile whose text is looked through


class Texts(NamedTuple):
    """The texts of makefiles and of `$(shell ..)` calls."""

    makefiles: Tuple[str, ...]
    calls: Tuple[str, ...]                       # as the shell gets them
    other: Tuple[str, ...]                       # as the makefile has them

    def all(self) -> Iterator[str]:
        """Each text."""
        yield from self.makefiles
        yield from self.calls


def texts_of(answer: Answer, hidden: Iterable[str]) -> Texts:
    """The texts of an answer; depfiles are no makefiles."""
    apart = set(hidden)
    names = [name for name in answer.makefiles if name not in apart and os.path.isfile(name)]
    found = [files.read(name) or b"" for name in names if os.path.getsize(name) <= LARGEST]
    texts = tuple(map(files.text_of, found))
    in_makefiles = environment.calls(texts, answer.variables)
    return Texts(texts, tuple(dict.fromkeys((*answer.shell_calls, *in_makefiles.known))), in_makefiles.other)


def of(answer: Answer, question: Question, hidden: Mapping[str, str], outputs: Iterable[str],
       written: Iterable[str] = ()) -> Dependencies:
    """The dependencies of an answer as they are now. `hidden` are depfiles, `written` what each reading writes."""
    texts = texts_of(answer, hidden)
    variables = environment.named(texts.all(), answer.variables, question.environment,
                                  bool(texts.calls or texts.other))
    git = {text: environment.printed(text) for text in dict.fromkeys(texts.calls) if environment.is_git(text)}
    states = file_states(names_of_files(answer, question, texts, bool(git)), {*hidden, *written})
    timed = tuple(sorted({ninja_name(name) for one in answer.includes for name in one.made_from}))
    counted = Dependencies(states, {}, variables, git, *counted_names(answer, texts, hidden, outputs), timed,
                           (*environment.unseen((*texts.calls, *texts.other)), *([] if answer.is_watched else [PART])),
                           environment.wildcards(texts.makefiles, answer.variables))
    return counted._replace(folders=folder_states(answer, question, counted))


def names_of_files(answer: Answer, question: Question, texts: Texts, has_git: bool) -> Set[str]:
    """The files that were opened, makefiles, includes with what they are made from, and paths outside in texts."""
    found = {relative(path, question.folder) for path in answer.opened}
    if not answer.is_watched:
        found.update(files_of_tree())
    if has_git:
        # what git reads is compared by what it prints
        found = {name for name in found if VERSIONED.isdisjoint(name.split("/"))}
    found.update(map(ninja_name, answer.makefiles))
    for one in answer.includes:
        found.add(ninja_name(one.path))
        found.update(map(ninja_name, one.made_from))
    found.update(one for text in (*texts.calls, *texts.other) for one in ABOVE.findall(text))
    found.update(one for text in texts.calls for one in ABSOLUTE.findall(text) if os.path.isfile(one))
    return found


def files_of_tree() -> Iterator[str]:
    """All files of the tree but those in version control's and kati-build's folders: the kernel showed only a part of
    what was opened."""
    for at, folders, names in os.walk("."):
        folders[:] = [one for one in folders if one not in VERSIONED and not (at == "." and one in OWN)]
        yield from (os.path.normpath(os.path.join(at, name)) for name in names)


def relative(path: str, folder: str) -> str:
    """A path below the folder relative to it; others as they are."""
    return path[len(folder.rstrip("/")) + 1:] if is_below(path, folder) else path


def file_states(names: Iterable[str], apart: Set[str]) -> Dict[str, Optional[FileState]]:
    """The states of files; nothing of folders, devices, and kati-build's own files."""
    found = {}
    for name in sorted(names):
        if name and name not in apart and name.split("/")[0] not in OWN:
            state = file_state(name)
            if state is not None or not os.path.lexists(name):
                found[name] = state
    return found


def counted_names(answer: Answer, texts: Texts, hidden: Iterable[str], outputs: Iterable[str]) -> Tuple:
    """Which names count beside those that are not hidden: the last fields of Dependencies."""
    includes = [ninja_name(one.path) for one in answer.includes]
    literal = {one for text in texts.all() for one in HIDDEN.findall(text)}
    shown = {parent for name in (*includes, *hidden, *outputs) if "/" in name for parent in parents(name)}
    kinds = {(os.path.dirname(name) or ".", os.path.splitext(name)[1]) for name in (*includes, *hidden)
             if os.path.basename(name).startswith(".") and os.path.splitext(name)[1]}
    is_all_shown = any(LISTS_HIDDEN.search(text) for text in (*texts.calls, *texts.other))
    return (tuple(sorted(hidden)), tuple(sorted(one for one in shown if is_hidden(one))), tuple(sorted(kinds)),
            is_all_shown, tuple(sorted(literal)))


def parents(name: str) -> Iterator[str]:
    """The folders of a relative name."""
    while "/" in name.strip("/"):
        name = os.path.dirname(name)
        yield name


def is_hidden(name: str) -> bool:
    """Whether the last part of a name makes it a hidden one."""
    return os.path.basename(name).startswith(".")


def folder_states(answer: Answer, question: Question, depends: Dependencies) -> Dict[str, Optional[FolderState]]:
    """The folders of the tree whose names count, and folders outside that were listed."""
    counting = Counting(depends)
    found: Dict[str, Optional[FolderState]] = {}
    work: List[str] = ["."]
    while work:
        at = work.pop()
        state = found[at] = folder_state(at, counting)
        prefix = "" if at == "." else f"{at}/"
        work += [prefix + name[:-1] for name in (state.names if state else ()) if name.endswith("/")
                 and is_walked(prefix + name[:-1], counting)]
    outside = {path for path in answer.listed if not is_below(path, question.folder)}
    found.update({path: folder_state(path, counting) for path in sorted(outside)})
    return found


def is_walked(path: str, counting: Counting) -> bool:
    """Whether the names in a folder of the tree count."""
    return not is_hidden(path) or path in counting.shown or \
        counting.is_all_shown and os.path.basename(path) not in VERSIONED
