"""The cases of the control messages, with what document 01's worked lines say of them.

The program `message_vectors` runs them from its files of cases. A set-up case starts a new interface, and the requests
behind it act on that one.
"""

import messages
from cases import digest, program_files
from messages import GET_FLAGS, SET_FLAGS, SET_KEY, SET_MAPPING, octets
from seeds import seeded, seeded_below

SET_UP, REQUEST, WRITE_GET_FLAGS, WRITE_SET_FLAGS, WRITE_SET_KEY, WRITE_SET_MAPPING, READ = range(7)

FILL = 238  # behind a payload in the host's buffer
BLANK = 165  # in the guest's output buffer

LISTED = [1, 2, 4, 8, 16, 32, 64, 128]


def fields(values):
    return b"".join(octets(value, 8) for value in values)


def agree_with_papers():
    """This program itself gives document 01's worked lines on mapping."""
    four = messages.settings_at_setup(4)
    for size, payload, status in [
        (8, fields([3]), 0),
        (8, fields([4]), 2),
        (0, b"", 2),
        (12, bytes(12), 2),
        (1600, bytes(1024), 2),
        (1024, bytes(1024), 0),
        (2048, bytes(1024), 3),
    ]:
        assert messages.judge(four, SET_MAPPING, size, payload)[0] == status, size


def request(kind, size, payload=b""):
    return REQUEST, octets(kind, 4) + octets(size, 4) + payload[: messages.MAX_PAYLOAD]


def mapping(entries):
    return request(SET_MAPPING, 8 * len(entries), fields(entries))


def worked_cases():
    yield SET_UP, bytes([4])
    yield mapping([3])
    yield mapping([4])
    for size in (0, 12, 1600, 1024, 2048):
        yield request(SET_MAPPING, size, bytes(min(size, 1024)))


def size_cases():
    """Each type with sizes around every bound, after some settings were made that a refusal must leave."""
    yield SET_UP, bytes([5])
    yield request(SET_FLAGS, 8, octets(9, 8))
    yield request(SET_KEY, 40, seeded("kept key", 40))
    yield mapping([4, 0, 3, 1])
    sizes = [0, 1, 7, 8, 9, 15, 16, 24, 39, 40, 41, 48, 64, 512, 1016, 1023, 1024, 1025, 1032, 2047, 2048, 2056]
    sizes += [2**16, 2**29, 2**31, 2**31 + 8, 2**32 - 8, 2**32 - 1]
    for kind in (0, 1, 2, 3, 4, 5, 6, 255, 256, 258, 0x10005, 2**31 + 2, 2**32 - 1):
        for size in sizes:
            yield request(kind, size)


def flag_cases():
    """Every value near 15, and values whose low octet alone would pass. Get flags answers 15 whatever is set."""
    yield SET_UP, bytes([64])
    for value in list(range(18)) + [31, 255, 256, 257, 2**8 + 15, 2**15, 2**16 + 1, 2**32, 2**32 + 5, 2**56, 2**56 + 15, 2**63, 2**64 - 1]:
        yield request(SET_FLAGS, 8, octets(value, 8))
        yield request(GET_FLAGS, 0)


def key_cases():
    yield SET_UP, bytes([1])
    for i in range(10):
        yield request(SET_KEY, 40, seeded(f"key {i}", 40))
        yield request(SET_KEY, 39 + 2 * (i % 2), seeded(f"other key {i}", 41))
    yield request(SET_KEY, 40, bytes(40))


def mapping_cases():
    """Good tables of every listed length; then an entry at or above the count, first, in the middle and last, or with
    a high octet set; and numbers of entries that are not listed."""
    for queues in (1, 2, 3, 4, 33, 63, 64):
        yield SET_UP, bytes([queues])
        for count in LISTED:
            if count <= 32 or queues == 64:
                yield mapping(seeded_below(f"table {queues} {count}", count, queues))
        for count in (1, 2, 4, 8) if queues in (1, 4, 63, 64) else (2,):
            good = seeded_below(f"other table {queues} {count}", count, queues)
            for place in sorted({0, count // 2, count - 1}):
                for bad in (queues, queues + 1, 255, 256, 256 + good[place], 2**32 + good[place], 2**56 + good[place], 2**64 - 1):
                    yield mapping(good[:place] + [bad] + good[place + 1 :])
                yield mapping(good[:place] + [queues - 1] + good[place + 1 :])
    for count in (3, 5, 6, 7, 9, 12, 24, 31, 33):
        yield mapping([0] * count)
    yield mapping([1] * 127 + [64])
    yield mapping([1] * 127)
    yield mapping([0] * 129)
    yield mapping([0] * 256)


def writer_cases():
    for room in (0, 1, 7, 8, 9, 64, 1100):
        yield WRITE_GET_FLAGS, octets(room, 2)
    for flags in (0, 1, 9, 15, 16, 17, 255, 256, 256 + 15, 2**32, 2**56 + 1, 2**64 - 1):
        for room in (0, 8, 15, 16, 17, 100):
            yield WRITE_SET_FLAGS, octets(room, 2) + octets(flags, 8)
    for length in (0, 1, 39, 40, 41, 80):
        for room in (0, 40, 47, 48, 49, 1100):
            yield WRITE_SET_KEY, octets(room, 2) + seeded("writer's key", length)
    for count in [0, 1, 2, 3, 4, 5, 7, 8, 12, 16, 17, 32, 63, 64, 128, 129, 256]:
        data = seeded("writer's entries", 8 * count)
        length = 8 + 8 * count
        rooms = [length - 1, length, length + 1] if count in LISTED else [0, 1100]
        for room in rooms if count < 64 else rooms[1:2]:
            yield WRITE_SET_MAPPING, octets(room, 2) + data


def reader_cases():
    """Acks whole and damaged, each read for every request type."""
    acks = []
    for status in (0, 1, 2, 3, 4, 255, 256, 2**32, 2**56 + 1):
        acks.append(messages.message(1, octets(status, 8)))
    for status in (0, 1, 2):
        for flags in (0, 7, 15, 16, 256, 2**56):
            acks.append(messages.message(1, octets(status, 8) + octets(flags, 8)))
    good = messages.message(1, octets(0, 8) + octets(15, 8))
    one = messages.message(1, octets(1, 8))
    acks += [b"", b"\x01", one[:7], one[:8], one[:15], one + b"\x00", good[:23], good + b"\x00"]
    acks += [octets(kind, 4) + one[4:] for kind in (0, 2, 257, 2**31 + 1)]
    acks += [one[:4] + octets(size, 4) + one[8:] for size in (0, 7, 9, 16, 8 + 256, 2**31 + 8, 2**32 - 1)]
    acks += [messages.message(1, octets(1, 8)[:4]), messages.message(1, octets(1, 8) + bytes(16))]
    for kind in (0, 1, 2, 3, 4, 5, 6, 258, 2**32 - 1):
        for ack in acks:
            yield READ, octets(kind, 4) + ack


def random_cases():
    """Requests one after the other on one interface, good and bad as the seed has it."""
    yield SET_UP, bytes([7])
    for i, kind in enumerate(seeded_below("kinds", 120, 7)):
        pick = seeded_below(f"pick {i}", 4, 1000)
        size = [0, 8, 40, 8 * LISTED[pick[1] % 5], pick[1] % 50][pick[0] % 5]
        if kind == SET_MAPPING and size % 8 == 0:
            payload = fields(seeded_below(f"entries {i}", size // 8, 7 + pick[2] % 2))
        elif kind == SET_FLAGS:
            payload = octets(pick[2] % 20, 8)
        else:
            payload = seeded(f"payload {i}", min(size, 48))
        yield request(kind, size, payload)


def all_cases():
    for part in (worked_cases, size_cases, flag_cases, key_cases, mapping_cases, writer_cases, reader_cases, random_cases):
        yield from part()


def request_line(settings, body):
    kind, size, kept = messages.number(body[:4]), messages.number(body[4:8]), body[8:]
    payload = kept + bytes([FILL]) * (messages.MAX_PAYLOAD - len(kept))
    left, ack = messages.carry_out(settings, kind, size, payload)
    table = bytes(left["table"])
    return left, (
        f"ack {len(ack)} {ack.hex():0<48} queues {left['queues']} flags {left['flags']} entries {len(table)}"
        f" key {digest(left['key'])} table {digest(table + bytes(128 - len(table)))}\n"
    )


def writer_line(kind, body):
    buffer = bytes([BLANK]) * messages.number(body[:2])
    given = body[2:]
    if kind == WRITE_GET_FLAGS:
        answer, buffer = messages.write_get_flags(buffer)
    elif kind == WRITE_SET_FLAGS:
        answer, buffer = messages.write_set_flags(messages.number(given), buffer)
    elif kind == WRITE_SET_KEY:
        answer, buffer = messages.write_set_key(given, buffer)
    else:
        entries = [messages.number(given[at : at + 8]) for at in range(0, len(given), 8)]
        answer, buffer = messages.write_set_mapping(entries, buffer)
    return f"{answer[0]} {answer[1]} buffer {digest(buffer)}\n"


def reader_line(body):
    word, value = messages.read_ack(messages.number(body[:4]), body[4:])
    return f"status 0 flags {value}\n" if word == "flags" else f"{word} {value}\n"


def expected(cases):
    settings = None
    for kind, body in cases:
        if kind == SET_UP:
            settings = messages.settings_at_setup(body[0])
        elif kind == REQUEST:
            settings, line = request_line(settings, body)
            yield line
        elif kind == READ:
            yield reader_line(body)
        else:
            yield writer_line(kind, body)


def files():
    """Each stored file, by its path below crates/, with the octets that it must have."""
    agree_with_papers()
    cases = list(all_cases())
    return program_files("message_vectors", cases, expected(cases))
