"""Includes of header dependencies that a port leaves to make: Ninja doesn't see a change of the headers that they
name."""
from .port_record import Record

MOST_NAMES = 10


def told(asked, room):
    """What to say of them, in lines: none where there are none."""
    names = ((Record(asked, room).kept() or {}).get("left to make") or [])
    if names:
        more = len(names) - MOST_NAMES
        joined = ", ".join(names[:MOST_NAMES]) + (f" and {more} more" if more > 0 else "")
        yield f"only make reads the header dependencies in {joined}: ninja doesn't rebuild for a changed header"
        yield ("help: write header dependencies by -MMD in the command that compiles, which ninja reads; or run "
               "kati-build --anew after a header has changed")
