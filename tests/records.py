"""The format of data files, read and written by itself: docs/FORMATS.md says it, and no code of the program is used."""

import struct
import typing
import zlib

HEADER = struct.Struct(">IIHIQ")  # checksum, moment, length of the key, length of the value, sequence number
CHECKED_FROM = 4  # the checksum is over all bytes from here on
MOST_IN_FILE = 67_108_864  # past this many bytes a data file takes no further record
LARGEST_KEY = 65_535
LARGEST_VALUE = 16_777_216


class Record(typing.NamedTuple):
    """A record that was read."""

    moment: int
    seq: int
    key: bytes
    value: bytes


def record(moment, seq, key, value):
    """A record as it stands in a data file."""
    text = HEADER.pack(0, moment, len(key), len(value), seq) + key + value
    return struct.pack(">I", zlib.crc32(memoryview(text)[CHECKED_FROM:])) + text[CHECKED_FROM:]


def size_of(key, value):
    """How many bytes the record of these takes."""
    return HEADER.size + len(key) + len(value)


def parsed(text):
    """The records from the front of the bytes, and the bytes from the first place on where no record stands."""
    records, at, whole = [], 0, memoryview(text)
    while len(text) - at >= HEADER.size:
        checksum, moment, key_length, value_length, seq = HEADER.unpack_from(text, at)
        key_at = at + HEADER.size
        value_at = key_at + key_length
        end = value_at + value_length
        if not (0 < key_length and value_length <= LARGEST_VALUE and 0 < seq < 1 << 63 and end <= len(text)):
            break
        if zlib.crc32(whole[at + CHECKED_FROM:end]) != checksum:
            break
        records.append(Record(moment, seq, text[key_at:value_at], text[value_at:end]))
        at = end
    return records, text[at:]


def is_first_part(rest, moments, seq, key, value):
    """Whether the bytes are a first part of the record of this write, with one of the moments."""
    if len(rest) > size_of(key, value):
        return False
    return any(record(moment, seq, key, value).startswith(rest) for moment in moments)


def fault_of_store(files, writes, acknowledged, moments):
    """What is wrong with the data files of a run in which these puts were sent, or None.

    `files` has the bytes of each by its number. They are to hold the records of a first part of the puts, of at
    least as many as were acknowledged, numbered from 1 and with moments from the range. The next file is made where
    the next record would pass the limit. Behind the last record may stand a first part of the next.
    """
    held, rest, size = 0, b"", 0
    if sorted(files) != list(range(1, len(files) + 1)):
        return f"the data files have the numbers {sorted(files)}"
    for number in sorted(files):
        if rest:
            return f"data file {number - 1} ends with {len(rest)} bytes of no record, and it isn't the last"
        if number > 1 and (held == len(writes) or size + size_of(*writes[held]) <= MOST_IN_FILE):
            return f"data file {number - 1} has room for record {held + 1}, and data file {number} is there"
        size = len(files[number])
        records, rest = parsed(files[number])
        if size > MOST_IN_FILE and len(records) > 1:
            return f"data file {number} has {len(records)} records in {size} bytes"
        for it in records:
            if held == len(writes) or it != Record(it.moment, held + 1, *writes[held]) or it.moment not in moments:
                return f"record {held + 1} of {len(writes)} is another: number {it.seq}, key {it.key}, moment {it.moment}"
            held += 1
    if held < acknowledged:
        return f"{acknowledged} puts were acknowledged, and {held} records are there"
    if rest and not (held < len(writes) and is_first_part(rest, moments, held + 1, *writes[held])):
        return f"behind record {held} stand {len(rest)} bytes that are no first part of the next"
    return None
