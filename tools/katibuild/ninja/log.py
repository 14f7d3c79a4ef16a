"""Ninja's log: when each output was made, and by which command."""
from __future__ import annotations

import os
import struct
from typing import Dict, Iterable, Iterator, Mapping, NamedTuple, Optional, Tuple

from ..base import files, interrupt, programs

NAME = ".ninja_log"
ALL_BITS = (1 << 64) - 1
MURMUR_FACTOR, MURMUR_SEED = 0xc6a4a7935bd1e995, 0xdecafbaddecafbad
RAPID_SEED = 0xbdd89aa982704029
RAPID_SECRETS = (0x2d358dccaa6c78a5, 0x8bb84b93962eacc9, 0x4b33a62ed433d4a3)
RAPID_BLOCK = 48                 # so many bytes rapidhash takes at once, where there are more
MURMUR, RAPID = "murmur", "rapid"
# Ninja up to 1.11, 1.12, and from 1.13 on.
HEADS = ((b"# ninja log v5", MURMUR), (b"# ninja log v6", MURMUR), (b"# ninja log v7", RAPID))
TRIED = (": a", ": " + "b" * 18, ": " + "c" * 38, ": " + "d" * 60, ": " + "e" * 150)


class Kind(NamedTuple):
    """How a ninja writes its log: the first line, and the hash of commands."""

    head: bytes
    hash: str


class Entry(NamedTuple):
    """What the log has of an output: the output's time in nanoseconds, and the hash of its command."""

    modified: int
    hash: int


class Log(NamedTuple):
    """A log's kind and entries; `data` are its bytes."""

    kind: Kind
    entries: Mapping[str, Entry]
    data: bytes


# -- hashes ------------------------------------------------------------------------------------------------------------

def murmur(data: bytes) -> int:
    """MurmurHash64A, by which Ninja up to 1.12 hashes a command."""
    found = MURMUR_SEED ^ (len(data) * MURMUR_FACTOR & ALL_BITS)
    whole = len(data) & ~7
    for (word,) in struct.iter_unpack("<Q", data[:whole]):
        word = word * MURMUR_FACTOR & ALL_BITS
        word ^= word >> 47
        found = (found ^ (word * MURMUR_FACTOR & ALL_BITS)) * MURMUR_FACTOR & ALL_BITS
    if len(data) > whole:
        found = (found ^ int.from_bytes(data[whole:], "little")) * MURMUR_FACTOR & ALL_BITS
    found ^= found >> 47
    found = found * MURMUR_FACTOR & ALL_BITS
    return found ^ (found >> 47)


def folded(one: int, other: int) -> int:
    """The two halves of a product, put into one."""
    product = one * other
    return (product & ALL_BITS) ^ (product >> 64)


def word_at(data: bytes, at: int, size: int = 8) -> int:
    """The number at a place of bytes."""
    return int.from_bytes(data[at:at + size], "little")


def rapid_ends(data: bytes) -> Tuple[int, int]:
    """The two numbers that rapidhash takes from the ends of at most 16 bytes."""
    length = len(data)
    if length >= 4:
        last, step = length - 4, (length & 24) >> (length >> 3)
        return ((word_at(data, 0, 4) << 32) | word_at(data, last, 4),
                (word_at(data, step, 4) << 32) | word_at(data, last - step, 4))
    return ((data[0] << 56) | (data[length >> 1] << 32) | data[-1], 0) if length else (0, 0)


def rapid_blocks(data: bytes, seed: int) -> Tuple[int, int]:
    """The seed after all whole blocks, and where the rest begins."""
    first, second, third = RAPID_SECRETS
    one, other, at = seed, seed, 0
    while len(data) - at >= RAPID_BLOCK or not at:
        words = struct.unpack_from("<6Q", data, at)
        seed = folded(words[0] ^ first, words[1] ^ seed)
        one = folded(words[2] ^ second, words[3] ^ one)
        other = folded(words[4] ^ third, words[5] ^ other)
        at += RAPID_BLOCK
    return seed ^ one ^ other, at


def rapid(data: bytes) -> int:
    """rapidhash, by which Ninja from 1.13 on hashes a command."""
    first, second, third = RAPID_SECRETS
    seed = RAPID_SEED ^ folded(RAPID_SEED ^ first, second) ^ len(data)
    if len(data) <= 16:
        one, other = rapid_ends(data)
    else:
        seed, at = rapid_blocks(data, seed) if len(data) > RAPID_BLOCK else (seed, 0)
        if len(data) - at > 16:
            seed = folded(word_at(data, at) ^ third, word_at(data, at + 8) ^ seed ^ second)
        if len(data) - at > 32:
            seed = folded(word_at(data, at + 16) ^ third, word_at(data, at + 24) ^ seed)
        one, other = word_at(data, len(data) - 16), word_at(data, len(data) - 8)
    product = (one ^ second) * (other ^ seed)
    return folded(product & ALL_BITS ^ first ^ len(data), product >> 64 ^ second)


def hashed(kind: Kind, command: str) -> int:
    """The hash of a command in a log of this kind."""
    data = files.bytes_of(command)
    return murmur(data) if kind.hash == MURMUR else rapid(data)


# -- the log -----------------------------------------------------------------------------------------------------------

def rows(data: bytes) -> Iterator[Tuple[str, Entry]]:
    """The entries of a log in its order; a torn line is none."""
    for line in data.split(b"\n")[1:]:
        parts = line.split(b"\t")
        if len(parts) == 5 and parts[2].isdigit():
            yield files.text_of(parts[3]), Entry(int(parts[2]), int(parts[4], 16))


def kind_of(paths: programs.Programs) -> Optional[Kind]:
    """The kind of the ninja at hand, from a log that it writes; None if its log is of no known kind."""
    text = "".join(f"rule r{number}\n command = {command}\nbuild o{number}: r{number}\n"
                   for number, command in enumerate(TRIED))
    with interrupt.scratch_folder() as folder:
        files.replace(os.path.join(folder, "build.ninja"), files.bytes_of(text))
        programs.run([paths.ninja], folder, os.environ)
        data = files.read(os.path.join(folder, NAME)) or b""
    kinds = [Kind(*one) for one in HEADS if data.startswith(one[0] + b"\n")]
    found = dict(rows(data))
    is_known = kinds and all(f"o{number}" in found and found[f"o{number}"].hash == hashed(kinds[0], command)
                             for number, command in enumerate(TRIED))
    return kinds[0] if is_known else None


def read(data: Optional[bytes], kind: Kind) -> Log:
    """The log of these bytes; one of another kind counts as empty, as it does for ninja."""
    if data is None or not data.startswith(kind.head + b"\n"):
        return Log(kind, {}, kind.head + b"\n")
    return Log(kind, dict(rows(data)), data)


def with_lines(log: Log, made: Mapping[str, Entry], gone: Iterable[str] = ()) -> bytes:
    """The bytes of the log with more entries, and without those of outputs that are gone."""
    dropped, data = frozenset(gone) & log.entries.keys(), log.data
    if dropped:
        head, *lines = data.split(b"\n")
        kept = [line for line in lines if files.text_of(line.split(b"\t")[3] if line.count(b"\t") == 4 else b"")
                not in dropped]
        data = b"\n".join([head, *kept])
    if not data.endswith(b"\n"):
        data += b"\n"            # a torn last line
    return data + b"".join(files.bytes_of(f"0\t0\t{entry.modified}\t{name}\t{entry.hash:x}\n")
                           for name, entry in made.items())


def lines(commands: Mapping[str, str], times: Mapping[str, int], kind: Kind) -> Dict[str, Entry]:
    """Entries for outputs that count as made: by output the command, and the output's own time."""
    return {name: Entry(times[name], hashed(kind, command)) for name, command in commands.items()}
