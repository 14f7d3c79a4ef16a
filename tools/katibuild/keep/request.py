"""What a run of kati-build goes by: what the user wants built, and where the files of that build are."""
from __future__ import annotations

import os
from typing import Mapping, NamedTuple, Optional, TYPE_CHECKING, Tuple

from ..base.files import bytes_of, digest

if TYPE_CHECKING:
    from ..base.programs import Programs

ROOM, GOALS, NINJA_FILE = ".kati", ".kati/goals", "build.ninja"


class Request(NamedTuple):
    """`jobs` is None where the user gave no -j."""

    makefile: Optional[str]
    goals: Tuple[str, ...]
    variables: Tuple[str, ...]
    ninja_file: str = "build.ninja"
    strict: bool = False
    jobs: Optional[int] = None


def is_same_build(one: Request, other: Request) -> bool:
    """Whether two requests have the same graph; how many jobs run changes no graph."""
    return one._replace(jobs=None) == other._replace(jobs=None)


def difference(earlier: Request, given: Request) -> str:
    """How a request differs from an earlier one, as the reason to read the makefile again."""
    if earlier.makefile != given.makefile:
        return f"the makefile is {given.makefile or 'the default one'} now"
    added = [one for one in given.variables if one not in earlier.variables]
    gone = [one for one in earlier.variables if one not in given.variables]
    if added:
        return f"{added[0]} is new on the command line"
    if gone:
        return f"{gone[0]} is no longer on the command line"
    return "the command line is different"


class Place(NamedTuple):
    """Where the files of one build are: the folder's own, or those of other goals."""

    room: str
    ninja_file: str

    @property
    def graph(self) -> str:
        """The explicit makefile."""
        return f"{self.room}/graph"

    @property
    def statements(self) -> str:
        """Ninja's statements."""
        return f"{self.room}/statements"

    @property
    def record(self) -> str:
        """What the build depends on."""
        return f"{self.room}/record"

    @property
    def watched(self) -> str:
        """The names that the shell line looks at, a NUL behind each."""
        return f"{self.room}/watched"

    @property
    def stat(self) -> str:
        """What `stat` printed of them."""
        return f"{self.room}/stat"

    @property
    def times(self) -> str:
        """The times of outputs after ninja's last run."""
        return f"{self.room}/times"


def place_of(request: Request) -> Place:
    """The default goal's files are in .kati, those of other goals in a folder named by goals and variables."""
    if not request.goals:
        return Place(ROOM, NINJA_FILE)
    words = "\0".join((request.makefile or "", *request.goals, "", *request.variables))
    room = f"{GOALS}/{digest(bytes_of(words))[:16]}"
    return Place(room, f"{room}/{NINJA_FILE}")


class Run(NamedTuple):
    """What a run of kati-build goes by. `look` is how build.ninja starts kati-build."""

    request: Request
    place: Place
    programs: Programs
    environ: Mapping[str, str]
    look: Tuple[str, ...]
    is_by_ninja: bool = False
    is_anew: bool = False
    is_forced: bool = False
    is_debug: bool = False


def tools_digest(programs: Programs) -> str:
    """A hash that changes with these tools and with kati."""
    top_folder = os.path.dirname(os.path.dirname(os.path.realpath(__file__)))
    paths = [os.path.join(at, name) for at, _, names in os.walk(top_folder) for name in names if name.endswith(".py")]
    states = [(path, os.stat(path).st_mtime_ns, os.stat(path).st_size) for path in sorted([*paths, programs.kati])]
    return digest(repr(states).encode())
