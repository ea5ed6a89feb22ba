"""Settings and captures with octets changed, cut off, put in and taken out, as a seed has it."""

import captures
import report

# Octets that mean something in one place or another.
TELLING = [0, 1, 2, 3, 4, 5, 6, 7, 8, 15, 16, 17, 40, 64, 65, 0x45, 0x46, 0x60, 0x65, 0x86, 0xDD, 0x80, 0xFF]


def record_starts(capture):
    """Where each record begins, and where the last one ends."""
    order, _link = captures.read_header(capture)
    starts = [captures.HEADER_LENGTH]
    for record in captures.read_records(capture, order):
        starts.append(starts[-1] + captures.RECORD_HEADER_LENGTH + len(record))
    return starts


def window(chance, capture):
    """The header and up to eight records in a row."""
    starts = record_starts(capture)
    first = chance.randrange(len(starts) - 1)
    last = min(first + chance.randrange(9), len(starts) - 1)
    return capture[: captures.HEADER_LENGTH] + capture[starts[first] : starts[last]]


def capture_places(capture):
    """The octets that are looked at: the header, the lengths of each record, its frame type and its IP header."""
    places = list(range(captures.HEADER_LENGTH))
    for start in record_starts(capture)[:-1]:
        content = start + captures.RECORD_HEADER_LENGTH
        places += [*range(start + 8, content), *range(content + 12, content + 24), *range(content, content + 10)]
    return places


def settings_places(settings):
    """The queue count, and of each message the header and the first octets of the payload."""
    places = [0] * 8
    at = 1
    for _kind, size, _payload in report.requests(settings[1:]):
        places += range(at, at + 12)
        at += 8 + size
    return places


def change(chance, data, at):
    data[at] = chance.choice([chance.choice(TELLING), chance.randrange(256), data[at] ^ 1 << chance.randrange(8)])


def put_in(chance, data, at):
    data[at:at] = chance.randbytes(chance.choice([1, 1, 2, 4, 8, 16]))


def take_out(chance, data, at):
    del data[at : at + chance.choice([1, 1, 2, 4, 8, 16])]


def turn(_chance, data, at):
    """Four octets in the other order."""
    at -= at % 4
    data[at : at + 4] = data[at : at + 4][::-1]


def cut(_chance, data, at):
    del data[at:]


def damaged(chance, data, places):
    """One to three such things done to the octets, mostly in the places that are looked at."""
    data = bytearray(data)
    for _ in range(chance.choice([1, 1, 2, 3])):
        if not data:
            break
        at = chance.choice(places) if chance.random() < 0.8 else chance.randrange(len(data))
        how = chance.choice([change, change, change, change, put_in, take_out, turn, cut])
        how(chance, data, min(at, len(data) - 1))
    return bytes(data)


def pair(chance, settings_files, capture_files):
    """Settings and a part of a capture, at least one of them damaged."""
    settings = chance.choice(settings_files)
    capture = window(chance, chance.choice(capture_files))
    which = chance.random()
    if which < 0.4:
        settings = damaged(chance, settings, settings_places(settings))
    if which > 0.3:
        capture = damaged(chance, capture, capture_places(capture))
    return settings, capture
