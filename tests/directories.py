"""What a directory holds, read by itself: docs/FORMATS.md says it, and no code of the program is used.

`opened` gives what an opening of the directory makes of it: which files stay, what each key's newest version is, and
the last numbers. It takes in hints as the program does, so it also tells what a lying hint leads to.
"""

import struct
import typing
import zlib

from records import HEADER, LARGEST_VALUE

HINT_HEADER = struct.Struct(">IHIQQI")  # moment, length of the key, of the value, place, sequence number, checksum
TOMBSTONE = 4_294_967_295  # in the place of a value's length
LARGEST_ID = 4_294_967_294
LAST_SEQ = (1 << 63) - 1
KINDS = ("data", "temp", "hint", "htmp", "swap", "stmp")


class Version(typing.NamedTuple):
    """The newest record of a key, and where it lies."""

    seq: int
    file: int
    at: int
    size: int
    checksum: int
    gone: bool


class Found(typing.NamedTuple):
    """What an opening finds of a data file."""

    length: int
    total: int  # the bytes of its whole records, as far as they are read
    hint: bytes  # what its hint is, or None where it has none


class Opened(typing.NamedTuple):
    """What an opening makes of a directory."""

    files: dict  # the bytes of each file by its name
    found: dict  # what is found of each data file, by its number
    versions: dict  # the version of each key that isn't gone
    last_seq: int
    last_id: int


def record_of(moment, seq, key, value):
    """A record as it stands in a data file; a tombstone where the value is None."""
    length = TOMBSTONE if value is None else len(value)
    text = HEADER.pack(0, moment, len(key), length, seq)[4:] + key + (value or b"")
    return struct.pack(">I", zlib.crc32(text)) + text


def scanned(text, at=0):
    """The records from a place on, as pairs of key and version without file, and where they end."""
    found = []
    while len(text) - at >= HEADER.size:
        checksum, _, key_length, value_length, seq = HEADER.unpack_from(text, at)
        gone = value_length == TOMBSTONE
        size = HEADER.size + key_length + (0 if gone else value_length)
        if not (key_length and (gone or value_length <= LARGEST_VALUE) and 0 < seq < 1 << 63 and at + size <= len(text)):
            break
        if zlib.crc32(text[at + 4:at + size]) != checksum:
            break
        found.append((text[at + HEADER.size:at + HEADER.size + key_length], Version(seq, 0, at, size, checksum, gone)))
        at += size
    return found, at


def hint_of(text, covered=None):
    """The true hint of a data file's whole records, or of those up to a place."""
    rows, count, end = b"", 0, 0
    for key, it in scanned(text)[0]:
        if covered is not None and it.at + it.size > covered:
            break
        moment, _, value_length = struct.unpack_from(">IHI", text, it.at + 4)
        rows += HINT_HEADER.pack(moment, len(key), value_length, it.at, it.seq, it.checksum) + key
        count, end = count + 1, it.at + it.size
    return rows + HINT_HEADER.pack(0, 0, 0, end, count, zlib.crc32(rows))


def judged(text, length):
    """What a hint is for a data file of this length, as a report has it; its rows, and what they cover, where it is Good."""
    rows, at, wrong = [], 0, []  # the numbers of rows that can't be
    while True:
        if len(text) - at < HINT_HEADER.size:
            return b"NOTWHOLE", [], 0
        moment, key_length, value_length, place, seq, checksum = HINT_HEADER.unpack_from(text, at)
        if key_length == 0:
            break
        key = text[at + HINT_HEADER.size:at + HINT_HEADER.size + key_length]
        if len(key) < key_length:
            return b"NOTWHOLE", [], 0
        gone = value_length == TOMBSTONE
        size = HEADER.size + key_length + (0 if gone else value_length)
        if not (0 < seq < 1 << 63 and (gone or value_length <= LARGEST_VALUE)):
            wrong.append(len(rows))
        rows.append((key, Version(seq, 0, place, size, checksum, gone)))
        at += HINT_HEADER.size + key_length
    if (moment, value_length, seq, at + HINT_HEADER.size) != (0, 0, len(rows), len(text)):
        return b"NOTWHOLE", [], 0
    if checksum != zlib.crc32(text[:at]):
        return b"BADCHECK %08x %08x" % (checksum, zlib.crc32(text[:at])), [], 0
    if place > length:
        return b"LENGTH %d %d" % (place, length), [], 0
    wrong += [number for number, (_, it) in enumerate(rows) if it.at + it.size > place]
    if wrong:
        return b"ROW %d" % min(wrong), [], 0
    return b"GOOD", rows, place


def list_of(inputs, outputs):
    """The text of a swap list."""
    text = b"".join(struct.pack(f">I{len(ids)}I", len(ids), *ids) for ids in (inputs, outputs))
    return text + struct.pack(">I", zlib.crc32(text))


def listed(text):
    """The inputs and the outputs of a whole swap list, or None."""
    at, both = 0, []
    for _ in range(2):
        if len(text) - at < 4:
            return None
        count, = struct.unpack_from(">I", text, at)
        if len(text) - at - 4 < 4 * count:
            return None
        both.append(struct.unpack_from(f">{count}I", text, at + 4))
        at += 4 + 4 * count
    if text[at:] != struct.pack(">I", zlib.crc32(text[:at])):
        return None
    return both


def name_of(number, kind):
    """The name of a file of this number and kind."""
    return f"{number}.bitcask.{kind}"


def is_number(number):
    """Whether a file of the store may have this number."""
    return 0 < number <= LARGEST_ID


def named(name):
    """The number and the kind of a file of the store, or None."""
    number, _, kind = name.partition(".bitcask.")
    if kind not in KINDS or not (number.isascii() and number.isdigit()) or number[0] == "0" or int(number) > LARGEST_ID:
        return None
    return int(number), kind


def numbers_of(files, kind):
    """The numbers of the files of a kind, in order."""
    return sorted(it[0] for it in map(named, files) if it and it[1] == kind)


def settled(files):
    """The files after each committed merge is brought to its end and what nothing needs is removed."""
    files, lists, odd = dict(files), [], False
    for number in numbers_of(files, "swap"):
        whole = listed(files[name_of(number, "swap")])
        odd = odd or whole is None
        if whole:
            lists.append((number, *whole))
    inputs = {number for _, some, _ in lists for number in some}
    for number, some, outputs in lists:
        for output in filter(is_number, outputs):
            if output not in inputs and name_of(output, "data") not in files and name_of(output, "temp") in files:
                files[name_of(output, "data")] = files.pop(name_of(output, "temp"))
        for it in filter(is_number, some):
            for kind in ("hint", "temp", "data"):
                files.pop(name_of(it, kind), None)
        del files[name_of(number, "swap")]
    if not odd:
        for name in list(files):
            number, kind = named(name) or (0, None)
            if kind in ("temp", "htmp", "stmp") or (kind == "hint" and name_of(number, "data") not in files):
                del files[name]
    return files


def opened(files):
    """What an opening makes of these files."""
    after, all_found, newest, last_seq = settled(files), {}, {}, 0
    for number in numbers_of(after, "data"):
        text, hint = after[name_of(number, "data")], after.get(name_of(number, "hint"))
        verdict, rows, covered = judged(hint, len(text)) if hint is not None else (None, [], 0)
        records, total = scanned(text, covered)
        all_found[number] = Found(len(text), total, verdict)
        for key, it in rows + records:
            last_seq = max(last_seq, it.seq)
            if key not in newest or newest[key].seq < it.seq:
                newest[key] = it._replace(file=number)
    last_id = max((it[0] for it in map(named, files) if it), default=0)
    return Opened(after, all_found, {key: it for key, it in newest.items() if not it.gone}, last_seq, last_id)


def report_of(it, odd):
    """The report of an opened directory that has these odd swap lists."""
    lines = []
    for number, found in it.found.items():
        live = sum(version.size for version in it.versions.values() if version.file == number)
        lines.append(b"FILE %d %d %d %d\n" % (number, found.length, found.total, live))
        if found.total < found.length:
            lines.append(b"TORN %d %d %d\n" % (number, found.total, found.length - found.total))
        if found.hint is not None:
            lines.append(b"HINT %d %s\n" % (number, found.hint))
    lines += [b"ODD %s\n" % name.encode() for name in odd]
    torn = sum(found.total < found.length for found in it.found.values())
    return b"".join(lines) + b"CHECKED %d %d\n" % (len(it.found), torn)


def odd_lists(files):
    """The names of the swap lists that aren't whole, in order."""
    names = [name_of(number, "swap") for number in numbers_of(files, "swap")]
    return [name for name in names if listed(files[name]) is None]


def reply_to_sync(it):
    """The reply to a sync of an opened directory."""
    return b"SYNCED %d\n" % it.last_seq


def reply_to_stat(it):
    """The reply to STAT over an opened directory."""
    total = sum(found.total for found in it.found.values())
    live = sum(version.size for version in it.versions.values())
    return b"STAT %d %d %d %d\n" % (len(it.versions), len(it.found), total, live)


def value_of(it, key):
    """The value of a key of an opened directory, or the line that says that its record is damaged."""
    version = it.versions[key]
    text = it.files[name_of(version.file, "data")][version.at:version.at + version.size]
    checksum = zlib.crc32(text[4:])
    if checksum != version.checksum:
        return None, b"DAMAGED %d %d %08x %08x\n" % (version.file, version.at, version.checksum, checksum)
    return text[HEADER.size + len(key):], None


def reply_to_get(it, key):
    """The reply to a get of the key over an opened directory whose puts are always live."""
    if key not in it.versions:
        return b"NONE\n"
    value, damage = value_of(it, key)
    return damage or b"VALUE %d\n" % len(value) + value + b"\n"


def listing_of(it):
    """What `list` prints of an opened directory whose puts are always live, and its status. A record that is damaged ends it."""
    lines = []
    for key in sorted(it.versions):
        value, damage = value_of(it, key)
        if damage:
            return 8, b"".join(lines) + damage
        lines.append(b"PAIR %d %d\n" % (len(key), len(value)) + key + value + b"\n")
    return 0, b"".join(lines) + b"END %d\n" % len(lines)


def ended_by_gets(it, keys):
    """The status and the output of a run that asks for each key of an opened directory."""
    return 0, b"".join(reply_to_get(it, key) for key in keys)
