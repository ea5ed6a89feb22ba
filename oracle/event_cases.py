"""The cases of one interface and its control ring, with what document 01's worked lines say of them.

The program `event_vectors` runs them from its files of cases. It keeps one interface, at its start set up with one queue,
and one buffer of 4,160 octets, at its start all zero, whose first octets are the page lent.
"""

import packets
import ring
from cases import digest, lines, program_files
from messages import GET_FLAGS, SET_FLAGS, SET_KEY, SET_MAPPING, message, number, octets
from packet_cases import one_of_each
from seeds import seeded, seeded_below

SET_UP, PATCH, FILL, EVENT, PACKET, SEND, TAKE, COUNTS = range(8)

BUFFER = 4160
WRONG_LENGTHS = [0, 1, 15, 16, 2063, 2064, 4095, 4097, 4160]
TOP = 2**32


# The cases, each a kind and a body.


def set_up(queues):
    return SET_UP, octets(queues, 4)


def patch(offset, data):
    """Octets put into the buffer."""
    return PATCH, octets(offset, 2) + data


def fill(offset, length, seed):
    """Octets put into the buffer that need not be listed."""
    return FILL, octets(offset, 2) + octets(length, 2) + octets(seed, 4)


def event(length=ring.PAGE_LENGTH):
    """An event on so many octets of the buffer."""
    return EVENT, octets(length, 2)


def send(data):
    """The guest puts octets into the request area behind those that it put there before."""
    return SEND, data


def take(count):
    """The guest has read so many more octets of acks."""
    return TAKE, octets(count, 4)


def counts(req_cons, rsp_prod):
    """Both counts of the interface, and a page that agrees: the ring is empty."""
    return COUNTS, octets(req_cons, 4) + octets(rsp_prod, 4)


def req_prod(value):
    return patch(4, octets(value % TOP, 4))


def rsp_cons(value):
    return patch(8, octets(value % TOP, 4))


def fresh(queues):
    """A new interface and the guest's two counts 0. The rest of the page is left from what was before."""
    yield set_up(queues)
    yield patch(4, bytes(8))


def begun_at(queues, req_cons, rsp_prod, unread=0):
    """A new interface with other counts, and so many octets of earlier acks that the guest has not read."""
    yield set_up(queues)
    yield counts(req_cons % TOP, rsp_prod % TOP)
    if unread:
        yield rsp_cons(rsp_prod - unread)


# Requests.


def header(kind, size):
    return octets(kind, 4) + octets(size, 4)


def get_flags():
    return message(GET_FLAGS, b"")


def set_flags(value):
    return message(SET_FLAGS, octets(value, 8))


def set_key(name):
    return message(SET_KEY, seeded(name, 40))


def set_mapping(entries):
    return message(SET_MAPPING, b"".join(octets(entry, 8) for entry in entries))


def sent(*requests):
    """Each request sent and given its event."""
    for request in requests:
        yield send(request)
        yield event()


def questions(name, chosen=(0, 1, 3)):
    """Packets of some of the kinds that packet_cases lists."""
    each = list(one_of_each(name))
    for n in chosen:
        yield PACKET, each[n]


def large(start, kind, size, come, step):
    """A message at count start with a payload too long to list, of which so many octets come, by filled areas."""
    yield from sent(header(kind, size))
    here = 0
    while here < come:
        here = min(here + step, come)
        yield fill(ring.REQUESTS, ring.AREA, (kind + size + here) % TOP)
        yield req_prod(start + 8 + here)
        yield event()


# What the program does with a case.


def at_start():
    return {"interface": ring.set_up(1), "buffer": bytearray(BUFFER)}


def act(kept, kind, body):
    """Carries a case out. The answer, where there is one."""
    buffer = kept["buffer"]
    if kind == SET_UP:
        interface = ring.set_up(number(body))
        if interface is None:
            return ring.QUEUE_COUNT_WRONG
        kept["interface"] = interface
    elif kind == PATCH:
        put(buffer, number(body[:2]), body[2:])
    elif kind == FILL:
        put(buffer, number(body[:2]), generated(number(body[2:4]), number(body[4:])))
    elif kind == EVENT:
        length = number(body)
        answer, kept["interface"], page = ring.event(kept["interface"], bytes(buffer[:length]))
        buffer[:length] = page
        return answer
    elif kind == SEND:
        put_request(buffer, body)
    elif kind == TAKE:
        buffer[8:12] = octets((number(buffer[8:12]) + number(body)) % TOP, 4)
    elif kind == COUNTS:
        req_cons, rsp_prod = body[:4], body[4:]
        kept["interface"] = {**kept["interface"], "req_cons": number(req_cons), "rsp_prod": number(rsp_prod)}
        buffer[0:16] = req_cons + req_cons + rsp_prod + rsp_prod
    return None


def put(buffer, offset, data):
    assert offset + len(data) <= BUFFER, "a case writes behind the buffer"
    buffer[offset : offset + len(data)] = data


def generated(length, x):
    data = []
    for _ in range(length):
        x = (x * 1103515245 + 12345) % 2**32
        data.append(x // 65536 % 256)
    return bytes(data)


def put_request(buffer, data):
    assert len(data) <= ring.AREA, "a send is longer than the area"
    count = number(buffer[4:8])
    for octet in data:
        buffer[ring.REQUESTS + count % ring.AREA] = octet
        count = ring.next_count(count)
    buffer[4:8] = octets(count, 4)


def printed(kept, kind, body, answer):
    """What the program prints of a case that was carried out."""
    interface = kept["interface"]
    settings = interface["settings"]
    if kind == SET_UP:
        return "set up\n" if answer is None else f"refused {answer}\n"
    if kind == PACKET:
        return packets.steer_words(settings, body) + "\n"
    if kind == EVENT:
        table = bytes(settings["table"])
        return (
            f"answer {answer} req_cons {interface['req_cons']} rsp_prod {interface['rsp_prod']}"
            f" page {digest(kept['buffer'])} flags {settings['flags']} entries {len(table)}"
            f" key {digest(settings['key'])} table {digest(table + bytes(128 - len(table)))}\n"
        )
    return ""


def expected(cases):
    return lines(cases, at_start(), act, printed)


# Document 01's worked lines.


def answers(cases):
    """The answers that some cases get from the start on, and what the program keeps behind them."""
    kept = at_start()
    found = [answer for answer in (act(kept, *case) for case in cases) if answer is not None]
    return found, kept


def last_status(kept):
    """The status of the ack written last, which is one without flags."""
    end = kept["interface"]["rsp_prod"]
    return number(bytes(kept["buffer"][ring.RESPONSES + (end - 8 + n) % ring.AREA] for n in range(8)))


def agree_with_papers():
    """This program itself gives document 01's worked lines."""
    # the 8 octets at 1018 to 1023, 0 and 1 are a message of their own, and the rest of the area is something else
    around = patch(ring.REQUESTS, b"\xee" * ring.AREA)
    placed = [patch(ring.REQUESTS + 1018, get_flags()[:6]), patch(ring.REQUESTS, get_flags()[6:])]
    found, kept = answers([*begun_at(1, 4294967290, 0), around, *placed, req_prod(2), event()])
    assert found == [1] and kept["interface"]["req_cons"] == 2 and kept["interface"]["rsp_prod"] == 24
    assert kept["buffer"][ring.RESPONSES :][:24] == message(1, octets(0, 8) + octets(15, 8))

    for apart, answer in ((1024, 1), (1025, 4)):
        found, kept = answers([*fresh(1), send(get_flags()), req_prod(apart), event()])
        assert found == [answer], apart

    for request, status in (([3], 0), ([4], 2)):
        found, kept = answers([*fresh(4), *sent(set_mapping(request))])
        assert found == [1] and last_status(kept) == status, request
    for size, status in ((0, 2), (12, 2), (1600, 2), (1024, 0), (2048, 3)):
        # the payload is zeros, 100 octets of it at a time and then what is left
        cases = [*fresh(4), *sent(header(SET_MAPPING, size)), patch(ring.REQUESTS, bytes(8))]
        for here in [*range(100, size, 100), size]:
            cases += [req_prod(8 + here), event()]
        found, kept = answers(cases)
        assert found.count(1) == 1 and last_status(kept) == status, size
        assert kept["interface"]["req_cons"] == 8 + size and kept["interface"]["rsp_prod"] == 16, size

    for queues, answer in ((0, [6]), (1, []), (64, []), (65, [6])):
        assert answers([set_up(queues)])[0] == answer, queues


# The sequences. Each begins with a set-up, but for the first.


def worked_sequences():
    yield event()
    yield from sent(get_flags())
    yield from fresh(4)
    yield from sent(set_flags(15), set_mapping([3]))
    yield from questions("worked")
    yield from sent(set_mapping([4]), header(SET_MAPPING, 0), header(SET_MAPPING, 12) + bytes(12))
    yield from questions("worked")
    # a whole table, of which the first 1,024 octets come at once and the last 8 later
    whole = set_mapping(seeded_below("whole table", 128, 4))
    yield from fresh(4)
    yield from sent(set_flags(15), set_key("whole table"))
    yield from sent(whole[:1024], whole[1024:])
    yield from questions("whole", range(4))
    # the same with the last entry too large, by its last octet, which is the last that is kept: the table stays
    yield from sent(set_mapping([3, 2]))
    spoilt = set_mapping(seeded_below("spoilt table", 127, 4) + [2**56 + 3])
    yield from sent(spoilt[:1000], spoilt[1000:])
    yield from questions("whole", range(4))
    for size in (1600, 2048):
        yield from fresh(4)
        yield from sent(set_mapping([3, 1]))
        yield from large(24, SET_MAPPING, size, size, 1024)
        yield from sent(get_flags())
    yield from begun_at(1, 4294967290, 0)
    yield send(get_flags())
    yield event()
    for apart in (1024, 1025):
        yield from fresh(1)
        yield send(get_flags())
        yield req_prod(apart)
        yield event()


def queue_sequences():
    """Setups taken and refused; a refusal leaves the interface that there is, half a message and settings with it."""
    for queues in (0, 65, 66, 128, 256, 257, 320, 2**16 + 4, 2**24 + 1, 2**31, 2**32 - 64, 2**32 - 1):
        yield from fresh(4)
        yield from sent(set_flags(queues % 16), set_key(f"queues {queues}")[:30])
        yield set_up(queues)
        yield event()
        yield from sent(set_key(f"queues {queues}")[30:])
    for queues in (1, 2, 3, 4, 31, 32, 33, 63, 64):
        yield from fresh(queues)
        yield from sent(set_mapping([queues - 1]), set_mapping([queues]))
        if queues > 1:
            yield from sent(set_mapping([queues - 2, 0, queues - 1, 1]))


def requests_of_all_kinds():
    """Good ones, and ones that each check refuses."""
    yield get_flags()
    yield message(GET_FLAGS, b"\x07")
    yield message(GET_FLAGS, octets(3, 8))
    for value in (0, 1, 6, 15, 16, 31, 256, 256 + 9, 2**32 + 5, 2**56, 2**63, 2**64 - 1):
        yield set_flags(value)
    for size in (0, 1, 7, 9, 16):
        yield message(SET_FLAGS, octets(5, 8)[:size] + bytes(max(size - 8, 0)))
    yield set_key("good key")
    yield message(SET_KEY, bytes(40))
    for size in (0, 8, 39, 41, 48):
        yield message(SET_KEY, seeded("bad key", size))
    for entries in ([0], [4], [1, 4], [4, 3, 2, 1], [0, 1, 2, 3, 4, 4, 3, 2]):
        yield set_mapping(entries)
    for entries in ([5], [6], [255], [256], [256 + 1], [2**32 + 2], [2**56 + 3], [2**64 - 1]):
        yield set_mapping(entries)
    for entries in ([5, 0], [0, 5], [0, 0, 0, 5], [1, 5, 1, 1], [1, 1, 256, 1], [0, 0, 0, 2**56]):
        yield set_mapping(entries)
    for count in (3, 5, 6, 7):
        yield set_mapping([0] * count)
    for size in (0, 1, 4, 7, 9, 12, 15, 17):
        yield message(SET_MAPPING, bytes(size))
    for kind in (0, 1, 6, 255, 258, 2**16 + 3, 2**31 + 2, 2**32 - 1):
        yield message(kind, octets(1, 8))
    for kind in (0, 1, 7, 2**32 - 4):
        yield message(kind, b"")


def kind_sequences():
    """Each request on an interface whose settings are all other ones than at setup, so that what stays is seen."""
    for n, request in enumerate(requests_of_all_kinds()):
        yield from fresh(5)
        yield from sent(set_flags(9 + n % 6), set_mapping([3, 4]))
        if n % 5 == 0:
            yield from sent(set_key(f"before {n}"))
        yield from sent(request)
        yield from questions(f"after {n}", [n % 4])


def cut_sequences():
    """Messages that come in two parts, cut at every place of the header and at some of the payload; nothing is set
    before the message is whole."""
    for name, request, places in (
        ("get flags", get_flags(), range(0, 8)),
        ("set flags", set_flags(13), [1, 2, 3, 4, 5, 6, 7, 8, 9, 12, 15]),
        ("set key", set_key("cut"), [1, 2, 3, 4, 5, 6, 7, 8, 9, 20, 27, 46, 47]),
        ("set mapping", set_mapping([2, 0, 3, 1]), [1, 2, 3, 4, 5, 6, 7, 8, 9, 15, 16, 17, 31, 39]),
        ("none", message(9, bytes(3)), [4, 8, 9, 10]),
    ):
        for place, start in zip(places, seeded_below(name, len(places), 2**28)):
            if place % 3:
                yield from begun_at(4, -(start % 61), -8 * (start % 127))
            else:
                yield from fresh(4)
            yield from sent(request[:place])
            if place % 4 == 0:
                yield event()
            yield from sent(request[place:])
    # an octet at a time
    for request in (get_flags(), set_flags(10), set_mapping([3]), set_key("octets")[:30]):
        yield from fresh(4)
        for octet in request:
            yield from sent(bytes([octet]))


def queued_sequences():
    """Several messages sent at once: each event carries out one, and the rest wait."""
    lists = [
        [get_flags(), get_flags()],
        [set_flags(1), set_flags(2), set_flags(3)],
        [set_flags(16), set_flags(4), get_flags()],
        [set_mapping([1]), set_mapping([2, 9]), set_mapping([2, 1])],
        [set_key("one"), set_flags(15), set_mapping([5, 4])],
        [message(0, b""), message(1, b""), get_flags(), message(6, b"")],
        [header(SET_FLAGS, 0), set_flags(7)],
        [header(SET_MAPPING, 0), set_mapping([3])],
        [message(SET_FLAGS, octets(9, 8) + b"\x02"), get_flags()],
    ]
    for n, requests in enumerate(lists):
        for start in (0, 1024 - 12, TOP - 20):
            yield from begun_at(6, start, 16 * n - 24)
            # the start of one more comes along
            yield send(b"".join(requests) + set_flags(11)[: 3 * n % 16])
            for _ in requests:
                yield event()
            yield event()
            yield from sent(set_flags(11)[3 * n % 16 :])
    # an area full of messages, one of which becomes whole by what comes last
    yield from fresh(3)
    yield send(set_flags(5) + get_flags() * 2 + set_mapping([2]) + message(7, bytes(950)))
    for _ in range(6):
        yield event()
    yield from sent(get_flags())


def length_sequences():
    """A page of another length is refused, whatever else is wrong, and the request waits."""
    for length in WRONG_LENGTHS:
        yield from fresh(2)
        yield send(set_flags(length % 16))
        yield event(length)
        yield event()
    for length in (0, 2064, 4095, 4096, 4097):
        for far in (1024, 1025):
            yield from begun_at(2, 3 * length, 8 * length)
            yield send(set_flags(7))
            for unread in (1024, 1025):
                yield patch(4, octets(3 * length + far, 4) + octets((8 * length - unread) % TOP, 4))
                yield event(length)


DISTANCES = [0, 1, 7, 8, 9, 1023, 1024, 1025, 1026, 1032, 2047, 2048, 2049, 2**16, 2**16 + 8, 2**24 + 8]
DISTANCES += [2**31 - 1, 2**31, 2**31 + 8, TOP - 1024, TOP - 8, TOP - 1]


def ahead_sequences():
    """How far the guest's req_prod may be ahead; then it is put right."""
    for start in (0, 4294967290):
        for far in DISTANCES:
            yield from begun_at(1, start, start * 8)
            yield send(get_flags())
            yield req_prod(start + far)
            yield event()
            yield req_prod(start + 8)
            yield event()


def unread_sequences():
    """How far the guest's rsp_cons may be behind; then it is put right."""
    for start in (0, TOP - 16):
        for far in DISTANCES:
            yield from begun_at(1, 77, start, far)
            yield send(set_flags(far % 16))
            yield event()
            yield rsp_cons(start)
            yield event()


def wrong_sequences():
    """Both counts wrong, one after the other put right, then a good event; with a message half read, or an ack owed."""
    for n, start in enumerate((0, 2**31, TOP - 3, 1021)):
        for far in (1025, 2**31 + 5, TOP - 1):
            yield from begun_at(2, start, 8 * start)
            yield from sent(set_mapping([1, 0])[: 4 + n])
            yield patch(4, octets((start + 4 + n + far) % TOP, 4) + octets((8 * start - far) % TOP, 4))
            yield event()
            yield event(4095)
            yield req_prod(start + 4 + n)
            yield event()
            yield rsp_cons(8 * start)
            yield from sent(set_mapping([1, 0])[4 + n :])
    for far in (1025, 2**30, TOP - 1):
        yield from begun_at(2, 1000, 2000, 1020)
        yield from sent(get_flags(), set_flags(3))
        yield req_prod(1008 + far)
        yield event()
        yield req_prod(1008 + 16)
        yield rsp_cons(2004 - far)
        yield event()
        yield rsp_cons(2004)
        yield event()
        yield event()


def room_sequences():
    """Room for a part of the ack or for none: it is owed, given as the guest reads, and no request is read meanwhile.
    The settings change with the whole message, however little of its ack there is room for."""
    steps = [5, 7, 8, 4, 9, 6, 11, 3, 10]
    for unread in range(1000, 1025):
        for n, request in enumerate((get_flags(), set_flags(unread % 16), set_mapping([1, 2, 0, 9]))):
            if n > 0 and unread % (2 * n) and unread < 1023:
                continue
            # the responses end at several places about the end of the area
            yield from begun_at(3, 1024 - unread % 9, 8 * (unread % 5) - 24, unread)
            yield send(request + get_flags()[: unread % 9])
            yield event()
            step = steps[(unread + n) % 9]
            room = 1024 - unread
            length = 24 if n == 0 else 16
            if unread % 4 == 0:
                yield event()
            while room < length:
                room += step
                yield take(step)
                yield event()
            yield event()
    # an octet at a time, about the end of the area
    yield from begun_at(1, 0, 1016, 1024)
    yield from sent(get_flags())
    for _ in range(25):
        yield take(1)
        yield event()
    for release in (0, 1, 23, 24, 25, 1023, 1024, 1025):
        yield from begun_at(1, 0, 1016, 1024)
        yield from sent(get_flags(), get_flags())
        yield take(release)
        yield event()
        yield event()


def garbage_sequences():
    """The page's own req_cons and rsp_prod, and all that lies behind the areas, must not matter."""
    for n in range(14):
        yield from begun_at(4, *seeded_below(f"start {n}", 1, TOP), 8 * n - 24)
        yield patch(0, seeded(f"req_cons {n}", 4))
        yield patch(12, seeded(f"rsp_prod {n}", 4))
        if n % 3 == 0:
            yield fill(2064, BUFFER - 2064, n)
        if n % 3 == 1:
            yield fill(ring.REQUESTS, 2 * ring.AREA, n)
        yield event()
        yield send([set_flags(n), get_flags(), set_mapping([3, n % 4])][n % 3])
        yield patch(0, [octets(0, 4), b"\xff" * 4, octets(1024, 4)][n % 3])
        yield patch(12, [b"\xff" * 4, octets(8, 4), octets(0, 4)][n % 3])
        yield event()
    # refused events leave the garbage as it is, and one that only writes owed octets puts it right
    for n in range(5):
        yield from begun_at(1, 500 * n, 1000 * n, 1024 - n)
        yield from sent(get_flags())
        own = 1000 * n + n
        yield patch(0, seeded(f"garbage {n}", 4))
        yield patch(12, seeded(f"more garbage {n}", 4))
        yield req_prod(500 * n + 8 + 1025 + n)
        yield event()
        yield req_prod(500 * n + 8)
        yield rsp_cons(own - 1025 - n)
        yield event()
        yield event(4095 + 2 * (n % 2))
        yield rsp_cons(own - 1024 + 6 * n)
        yield event()
        yield event()


def wrap_sequences():
    """Counts about 2^32 and about multiples of 1,024: requests and acks fall into two parts."""
    below = [TOP - far for far in (1024, 17, 16, 9, 8, 7, 6, 1)]
    for start in below + [0, 1016, 1020, 1023, 1024]:
        end = start - start % 8
        yield from begun_at(4, start, end)
        yield from sent(set_flags(start % 16), get_flags())
        yield from begun_at(4, end, end + 8, 1019)
        yield send(set_mapping([3, 2]) + get_flags())
        for step in (4, 3, 20, 0):
            yield event()
            yield take(step)
        yield event()
    for n in range(12):
        yield from begun_at(2, 1024 * (TOP // 1024 - n % 3) - 4 * n, 1024 * n - 8)
        yield from sent(set_key(f"wrap {n}")[: 12 + 4 * n], set_key(f"wrap {n}")[12 + 4 * n :])


def any_place_sequences():
    """Acks from any place on. An interface with nothing owed has written whole acks, so its rsp_prod is a multiple of
    8; these counts are none that a run comes to, and the rules speak of them all the same."""
    for start in (TOP - 23, TOP - 15, TOP - 6, TOP - 1, 1, 5, 1001, 1007, 1009, 1015, 1017, 1023):
        yield from begun_at(2, start, start, 1024 - start % 7)
        yield send(get_flags() + set_flags(start % 16))
        for step in (9, 10, 22):
            yield event()
            yield take(step)
        yield event()


def large_sequences():
    """Payload behind the first 1,024 octets is counted and dropped; what follows the message is found."""
    for n, (kind, size, step) in enumerate(
        [
            (SET_MAPPING, 1024, 1024),
            (SET_MAPPING, 1025, 1024),
            (SET_MAPPING, 1032, 700),
            (SET_MAPPING, 1600, 1000),
            (SET_MAPPING, 2048, 1000),
            (SET_MAPPING, 4096, 1024),
            (SET_MAPPING, 5000, 1024),
            (SET_FLAGS, 1024, 512),
            (SET_FLAGS, 1032, 1024),
            (SET_KEY, 1025, 1023),
            (SET_KEY, 1064, 1024),
            (GET_FLAGS, 1600, 1024),
            (0, 1023, 1024),
            (6, 5000, 900),
        ]
    ):
        start = [0, TOP - 600, 1020][n % 3]
        yield from begun_at(4, start, 16 * n)
        yield from sent(set_flags(n))
        yield from large(start + 16, kind, size, size, step)
        yield from sent(set_key(f"behind {n}") if n % 2 else set_mapping([3, n % 4]), get_flags())
    # payloads that never end, or do not end here
    for kind, size in ((4, TOP - 1), (3, TOP - 1), (6, TOP - 8), (5, 2**31), (2, 2**16)):
        yield from fresh(4)
        yield from large(0, kind, size, 3000, 1024)
        yield from sent(get_flags())
    # all but the last octet, and then the last one
    yield from fresh(4)
    yield from large(0, SET_MAPPING, 2048, 2047, 1024)
    yield from sent(b"", b"\x00", get_flags())


def settings_sequences():
    """Questions on packets before and after each setting is made, and after ones that are refused."""
    for n in range(9):
        yield from fresh(64)
        each = range(7) if n == 0 else [n % 4, 3 * (n % 2)]
        yield from questions(f"settings {n}", each)
        table = seeded_below(f"settings {n}", 2 ** (n % 5), 64)
        for request in (set_key(f"settings {n}"), set_mapping(table), set_flags(15 - n)):
            yield from sent(request)
            yield from questions(f"settings {n}", each)
        yield from sent([set_flags(16), set_mapping([1, 64]), message(SET_KEY, seeded("short", 39))][n % 3])
        yield from questions(f"settings {n}", each)


def random_request(numbers):
    """One of many requests, good more often than not."""
    a, b = next(numbers), next(numbers)
    return [
        get_flags(),
        set_flags(b % 16),
        set_flags(b % 20),
        set_mapping([b % 7]),
        set_mapping([b % 5, b // 5 % 6]),
        set_mapping([b % 4, b // 4 % 4, b // 16 % 4, b // 64 % 4]),
        message(b % 7, bytes(b % 5)),
        message(b % 9, octets(b, 8)),
        set_key(f"random {b}"),
    ][a % 9]


def random_sequences():
    """Guests of all sorts. This program plays along, so as to know how much may be sent and read."""
    kept = at_start()
    for n in range(50):
        numbers = iter(seeded_below(f"sequence {n}", 200, TOP))
        for case in random_steps(kept, numbers):
            act(kept, *case)
            yield case


def random_start(numbers):
    count = next(numbers)
    return [0, TOP - count % 64, 1024 - count % 64, count][count // 64 % 4]


def random_steps(kept, numbers):
    rsp_prod = random_start(numbers) // 8 * 8
    tight = next(numbers)
    yield from begun_at(4 + tight % 3, random_start(numbers), rsp_prod, [0, 0, 1000 + tight % 25, 960][tight // 64 % 4])
    pending = b""
    for _ in range(10):
        interface, buffer = kept["interface"], kept["buffer"]
        waiting = ring.less(number(buffer[4:8]), interface["req_cons"])
        unread = ring.less(interface["rsp_prod"], number(buffer[8:12]))
        choice, amount = next(numbers), next(numbers)
        if choice % 8 < 3:
            if not pending:
                pending = random_request(numbers) + (random_request(numbers) if amount % 3 == 0 else b"")
            cut = len(pending) if amount % 4 else amount // 4 % len(pending)
            cut = min(cut, ring.AREA - waiting)
            yield send(pending[:cut])
            pending = pending[cut:]
        elif choice % 8 == 3:
            yield take(amount % (unread + 1) if amount % 2 else min(unread, amount // 2 % 16))
        elif choice % 8 == 4:
            yield from hostile(buffer, choice // 8, amount)
        yield event()
    if tight % 2:
        yield from questions(f"random {tight}", [tight % 4])


def hostile(buffer, choice, amount):
    """A wrong page for one event, put right behind it."""
    right = [bytes(buffer[at : at + 4]) for at in (4, 8)]
    if choice % 4 == 0:
        yield event(WRONG_LENGTHS[amount % len(WRONG_LENGTHS)])
    elif choice % 4 == 1:
        yield patch(0, octets(amount, 4))
        yield patch(12, octets(amount, 4))
    elif choice % 4 == 2:
        yield req_prod(number(right[0]) + 1025 + amount)
        yield event()
        yield patch(4, right[0])
    else:
        yield rsp_cons(number(right[1]) - 1025 - amount)
        yield event()
        yield patch(8, right[1])


def all_cases():
    for part in (
        worked_sequences,
        queue_sequences,
        kind_sequences,
        cut_sequences,
        queued_sequences,
        length_sequences,
        ahead_sequences,
        unread_sequences,
        wrong_sequences,
        room_sequences,
        garbage_sequences,
        wrap_sequences,
        any_place_sequences,
        large_sequences,
        settings_sequences,
        random_sequences,
    ):
        yield from part()


def files():
    """Each stored file, by its path below crates/, with the octets that it must have."""
    agree_with_papers()
    cases = list(all_cases())
    return program_files("event_vectors", cases, expected(cases))
