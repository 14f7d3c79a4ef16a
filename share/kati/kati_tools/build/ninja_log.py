"""Ninja's log and its log of header dependencies: their bytes, and the hashes of commands that they hold.

A line of the log has the start and the end of a command, the time of the output, its name, and the hash of the
command. Up to 1.12 Ninja hashes by MurmurHash64A, from 1.13 on by rapidhash."""
import os
import struct

from ..base.programs import bytes_of, text_of

ALL_BITS = (1 << 64) - 1
MURMUR_FACTOR, MURMUR_SEED = 0xc6a4a7935bd1e995, 0xdecafbaddecafbad
RAPID_SEED = 0xbdd89aa982704029
RAPID_SECRETS = (0x2d358dccaa6c78a5, 0x8bb84b93962eacc9, 0x4b33a62ed433d4a3)
# So many bytes rapidhash takes at once, where there are more.
RAPID_BLOCK = 48
SECOND = 1_000_000_000
DEPS_HEAD, DEPS_VERSION = b"# ninjadeps\n", 4
BEFORE_RECORDS = DEPS_HEAD + struct.pack("=i", DEPS_VERSION)
# What tells the record of an output from a name's.
OF_OUTPUT = 1 << 31
# Ninja takes a longer record of header dependencies for the end of what is whole.
LONGEST_RECORD = (1 << 19) - 1


def murmur(data):
    """The hash of a command in Ninja up to 1.12."""
    found = MURMUR_SEED ^ (len(data) * MURMUR_FACTOR & ALL_BITS)
    whole = len(data) & ~7
    for (word,) in struct.iter_unpack("<Q", data[:whole]):
        word = word * MURMUR_FACTOR & ALL_BITS
        word ^= word >> 47
        found = (found ^ (word * MURMUR_FACTOR & ALL_BITS)) * MURMUR_FACTOR & ALL_BITS
    if len(data) > whole:
        found = (found ^ int.from_bytes(data[whole:], "little")) * MURMUR_FACTOR & ALL_BITS
    found ^= found >> 47
    found = found * MURMUR_FACTOR & ALL_BITS
    return found ^ (found >> 47)


def folded(one, other):
    """The two halves of a product of two numbers, put into one."""
    product = one * other
    return (product & ALL_BITS) ^ (product >> 64)


def word_at(data, at, size=8):
    """The number that stands at a place of bytes."""
    return int.from_bytes(data[at:at + size], "little")


def rapid_ends(data):
    """The two numbers that rapidhash takes from the ends of at most 16 bytes."""
    length = len(data)
    if length >= 4:
        last = length - 4
        step = (length & 24) >> (length >> 3)
        return ((word_at(data, 0, 4) << 32) | word_at(data, last, 4),
                (word_at(data, step, 4) << 32) | word_at(data, last - step, 4))
    if length:
        return (data[0] << 56) | (data[length >> 1] << 32) | data[-1], 0
    return 0, 0


def rapid_blocks(data, seed):
    """The seed after all whole blocks of 48 bytes, and where the rest begins."""
    first, second, third = RAPID_SECRETS
    one = other = seed
    at, left = 0, len(data)
    while True:
        words = struct.unpack_from("<6Q", data, at)
        seed = folded(words[0] ^ first, words[1] ^ seed)
        one = folded(words[2] ^ second, words[3] ^ one)
        other = folded(words[4] ^ third, words[5] ^ other)
        at, left = at + RAPID_BLOCK, left - RAPID_BLOCK
        if left < RAPID_BLOCK:
            return seed ^ one ^ other, at


def rapid(data):
    """The hash of a command in Ninja from 1.13 on."""
    first, second, third = RAPID_SECRETS
    seed = RAPID_SEED ^ folded(RAPID_SEED ^ first, second) ^ len(data)
    if len(data) <= 16:
        one, other = rapid_ends(data)
    else:
        seed, at = rapid_blocks(data, seed) if len(data) > RAPID_BLOCK else (seed, 0)
        left = len(data) - at
        if left > 16:
            seed = folded(word_at(data, at) ^ third, word_at(data, at + 8) ^ seed ^ second)
        if left > 32:
            seed = folded(word_at(data, at + 16) ^ third, word_at(data, at + 24) ^ seed)
        one, other = word_at(data, len(data) - 16), word_at(data, len(data) - 8)
    product = (one ^ second) * (other ^ seed)
    low, high = product & ALL_BITS, product >> 64
    return folded(low ^ first ^ len(data), high ^ second)


def time_of(name, unit):
    """The time of a file as Ninja has it, in units of so many nanoseconds; None where there is no file."""
    try:
        found = os.stat(name).st_mtime_ns
    except (FileNotFoundError, NotADirectoryError):
        return None
    # Of the second 0, which stands for no file, Ninja makes 1.
    return 1 if found // SECOND == 0 else found // unit


def row(output, time, hashed):
    """A line of the log for a file that Ninja hasn't made."""
    return f"0\t0\t{time}\t{output}\t{hashed:x}\n"


def names_in(data):
    """The names that a log of header dependencies has, by their numbers; None where it has another form."""
    at = len(BEFORE_RECORDS)
    if not data.startswith(BEFORE_RECORDS):
        return None
    found = []
    while at < len(data):
        (size,) = struct.unpack_from("=I", data.ljust(at + 4, b"\0"), at)
        end = at + 4 + (size & ~OF_OUTPUT)
        if end > len(data) or end < at + 8:
            return None
        if not size & OF_OUTPUT:
            # What it ends with is its number.
            found.append(text_of(data[at + 4:end - 4].rstrip(b"\0")))
        at = end
    return found


def deps(records, known=None):
    """The log of header dependencies of records, each an output with its time and the files that it was made from; or
    what comes behind one that has the `known` names."""
    found = bytearray(BEFORE_RECORDS if known is None else b"")
    numbers = {name: number for number, name in enumerate(known or ())}

    def number(name):
        """The number of a name, which stands before the first record that has it."""
        if name not in numbers:
            data = bytes_of(name)
            data += b"\0" * (-len(data) % 4)
            numbers[name] = len(numbers)
            found.extend(struct.pack("=I", len(data) + 4) + data + struct.pack("=I", ~numbers[name] & 0xffffffff))
        return numbers[name]

    for output, time, inputs in records:
        own, others = number(output), list(map(number, inputs))
        size = 4 * (3 + len(others))
        found.extend(struct.pack("=IIII", size | OF_OUTPUT, own, time & 0xffffffff, time >> 32))
        found.extend(struct.pack(f"={len(others)}I", *others))
    return bytes(found)


def fits_record(inputs):
    """Whether so many header dependencies fit a record."""
    return 4 * (3 + len(inputs)) <= LONGEST_RECORD
