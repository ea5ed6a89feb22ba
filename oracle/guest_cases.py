"""The cases of the guest's end of the ring, against the host's end and against hosts of all other sorts.

The program `guest_vectors` runs them from its files of cases. It keeps one guest, one interface of the host, at its start
set up with one queue, and one buffer of 4,160 octets, at its start all zero, whose first octets are the page lent.
"""

import guest
import ring
from cases import digest, lines, program_files
from event_cases import BUFFER, DISTANCES, TOP, WRONG_LENGTHS, generated, put, random_start
from event_cases import EVENT as EVENT_LINE
from event_cases import SET_UP as SET_UP_LINE
from event_cases import printed as host_printed
from messages import ACK, message, number, octets
from seeds import seeded, seeded_below

(
    GUEST_SET_UP,
    START_GET_FLAGS,
    START_SET_FLAGS,
    START_SET_KEY,
    START_SET_MAPPING,
    GUEST_EVENT,
    COUNTS,
    HOST_SET_UP,
    HOST_EVENT,
    PATCH,
    FILL,
) = range(11)

LISTED = [1, 2, 4, 8, 16, 32, 64, 128]


# The cases, each a kind and a body. A call is on so many octets of the buffer.


def guest_set_up():
    return GUEST_SET_UP, b""


def get_flags(length=ring.PAGE_LENGTH):
    return START_GET_FLAGS, octets(length, 2)


def set_flags(flags, length=ring.PAGE_LENGTH):
    return START_SET_FLAGS, octets(length, 2) + octets(flags, 8)


def set_key(key, length=ring.PAGE_LENGTH):
    return START_SET_KEY, octets(length, 2) + key


def set_mapping(count, given, length=ring.PAGE_LENGTH):
    """So many entries. Where fewer are given, those come again, so that a long mapping needs a short case."""
    return START_SET_MAPPING, octets(length, 2) + octets(count, 2) + b"".join(octets(entry, 8) for entry in given)


def event(length=ring.PAGE_LENGTH):
    return GUEST_EVENT, octets(length, 2)


def counts(req_cons, req_prod, rsp_cons, rsp_prod):
    """The page's four counts, of which each end takes its own two."""
    four = (req_cons, req_prod, rsp_cons, rsp_prod)
    return COUNTS, octets(0, 2) + b"".join(octets(count % TOP, 4) for count in four)


def host_set_up(queues):
    return HOST_SET_UP, octets(queues, 4)


def host_event(length=ring.PAGE_LENGTH):
    return HOST_EVENT, octets(length, 2)


def patch(offset, data):
    """Octets put into the buffer."""
    return PATCH, octets(offset, 2) + data


def fill(offset, length, seed):
    """Octets put into the buffer that need not be listed."""
    return FILL, octets(offset, 2) + octets(length, 2) + octets(seed, 4)


def req_cons(value):
    return patch(guest.REQ_CONS, octets(value % TOP, 4))


def rsp_prod(value):
    return patch(guest.RSP_PROD, octets(value % TOP, 4))


def own_on_page(req_prod, rsp_cons):
    """What the page says for the guest's own two counts."""
    return patch(guest.REQ_PROD, octets(req_prod % TOP, 4) + octets(rsp_cons % TOP, 4))


def empty_at(requests, responses):
    """Counts by which both ends agree and both areas are empty. What stands there is left from what was before."""
    yield counts(requests, requests, responses, responses)


def begun(queues, requests=0, responses=0):
    """Both ends new, with these counts."""
    yield guest_set_up()
    yield host_set_up(queues)
    yield from empty_at(requests, responses)


def alone(requests=0, responses=0):
    """A new guest alone: the host is played by patches."""
    yield guest_set_up()
    yield from empty_at(requests, responses)


def served(*starts):
    """Each request begun, carried out by the host, and its ack collected. One of 1,032 octets takes two turns."""
    for start in starts:
        yield start
        for _ in range(turns(start)):
            yield host_event()
            yield event()


def turns(start):
    kind, body = start
    return 2 if kind == START_SET_MAPPING and number(body[2:4]) == 128 else 1


def key(name):
    return set_key(seeded(name, 40))


def put_ack(responses, data):
    """Octets in the response area from that count on, in one or two parts."""
    place = responses % ring.AREA
    room = ring.AREA - place
    yield patch(ring.RESPONSES + place, data[:room])
    if data[room:]:
        yield patch(ring.RESPONSES, data[room:])


def acked(responses, data, come=None):
    """A host that puts octets behind that count and says that so many have come."""
    yield from put_ack(responses, data)
    yield rsp_prod(responses + (len(data) if come is None else come))


# Acks.


def ack(status):
    return message(ACK, octets(status, 8))


def ack_with_flags(flags, status=0):
    return message(ACK, octets(status, 8) + octets(flags, 8))


def header(kind, size):
    return octets(kind, 4) + octets(size, 4)


# What the program does with a case.


def at_start():
    return {"guest": guest.set_up(), "interface": ring.set_up(1), "buffer": bytearray(BUFFER)}


def entries_of(given):
    count = number(given[:2])
    listed = [number(given[at : at + 8]) for at in range(2, len(given), 8)]
    return [listed[n % len(listed)] for n in range(count)]


def call(kept, kind, body):
    """A call of the guest. The answer."""
    length, given = number(body[:2]), body[2:]
    state, page = kept["guest"], bytes(kept["buffer"][:length])
    if kind == START_GET_FLAGS:
        answer = guest.start_get_flags(state, page)
    elif kind == START_SET_FLAGS:
        answer = guest.start_set_flags(state, page, number(given))
    elif kind == START_SET_KEY:
        answer = guest.start_set_key(state, page, given)
    elif kind == START_SET_MAPPING:
        answer = guest.start_set_mapping(state, page, entries_of(given))
    else:
        answer = guest.event(state, page)
    told, kept["guest"], kept["buffer"][:length] = answer
    return told


def act(kept, kind, body):
    """Carries a case out. The answer, where there is one."""
    buffer = kept["buffer"]
    if kind == GUEST_SET_UP:
        kept["guest"] = guest.set_up()
    elif kind == HOST_SET_UP:
        interface = ring.set_up(number(body))
        if interface is None:
            return ring.QUEUE_COUNT_WRONG
        kept["interface"] = interface
    elif kind == HOST_EVENT:
        length = number(body)
        answer, kept["interface"], buffer[:length] = ring.event(kept["interface"], bytes(buffer[:length]))
        return answer
    elif kind == PATCH:
        put(buffer, number(body[:2]), body[2:])
    elif kind == FILL:
        put(buffer, number(body[:2]), generated(number(body[2:4]), number(body[4:])))
    elif kind == COUNTS:
        put(buffer, number(body[:2]), body[2:])
        page = {name: guest.count_at(buffer, place) for name, place in COUNT_PLACES.items()}
        kept["guest"] = {**kept["guest"], "req_prod": page["req_prod"], "rsp_cons": page["rsp_cons"]}
        kept["interface"] = {**kept["interface"], "req_cons": page["req_cons"], "rsp_prod": page["rsp_prod"]}
    else:
        return call(kept, kind, body)
    return None


COUNT_PLACES = {
    "req_cons": guest.REQ_CONS,
    "req_prod": guest.REQ_PROD,
    "rsp_cons": guest.RSP_CONS,
    "rsp_prod": guest.RSP_PROD,
}


def guest_line(kept, told):
    words = f"guest {told[0]}"
    if told[0] == guest.ACKED:
        words += f" status {told[1]}"
    if len(told) == 3:
        words += f" flags {told[2]}"
    state = kept["guest"]
    return (
        f"{words} phase {state['phase']} req_prod {state['req_prod']} rsp_cons {state['rsp_cons']}"
        f" page {digest(kept['buffer'])}\n"
    )


def printed(kept, kind, body, answer):
    """What the program prints of a case that was carried out. The host's lines are those of `event_vectors`."""
    if kind == GUEST_SET_UP:
        return "guest set up\n"
    if kind == HOST_SET_UP:
        return host_printed(kept, SET_UP_LINE, body, answer)
    if kind == HOST_EVENT:
        return host_printed(kept, EVENT_LINE, body, answer)
    if kind in (COUNTS, PATCH, FILL):
        return ""
    return guest_line(kept, answer)


def expected(cases):
    return lines(cases, at_start(), act, printed)


# What is known beforehand.


def answers(cases):
    """The guest's answers that some cases get from the start on, and what the program keeps behind them."""
    kept = at_start()
    found = [answer for answer in (act(kept, *case) for case in cases) if isinstance(answer, tuple)]
    return found, kept


def agree_with_papers():
    """This program itself gives what the documents say outright, and some answers worked out by hand."""
    # both ends fresh on a zeroed page and taking turns: the guest ends with the status that the host gave
    assert answers([host_set_up(4), *served(get_flags())])[0] == [(0,), (1, 0, 15)]
    assert answers([host_set_up(4), *served(set_flags(15))])[0] == [(0,), (1, 0)]
    assert answers([host_set_up(4), *served(key("any"))])[0] == [(0,), (1, 0)]
    assert answers([host_set_up(4), *served(set_mapping(1, [3]))])[0] == [(0,), (1, 0)]
    assert answers([host_set_up(4), *served(set_mapping(1, [4]))])[0] == [(0,), (1, 2)]
    # the longest request does not fit at once, and the host keeps each of its entries
    long = set_mapping(128, [3, 0, 1])
    found, kept = answers([host_set_up(4), *served(long)])
    assert found == [(2,), (0,), (1, 0)]
    assert kept["interface"]["settings"]["table"] == [[3, 0, 1][n % 3] for n in range(128)]
    assert kept["guest"]["req_prod"] == 1032 and kept["guest"]["rsp_cons"] == 16
    # idle, and waiting: nothing is read
    assert answers([*acked(0, ack(0)), event()])[1]["guest"]["rsp_cons"] == 0
    assert answers([*acked(0, ack(0)), set_flags(1)])[1]["guest"]["rsp_cons"] == 0
    # the host's 1,024 is taken and its 1,025 refused, and 4 comes before 5, which comes before 12 and 13
    for far, found in ((1024, [(0,)]), (1025, [(5,)])):
        assert answers([rsp_prod(far), event()])[0] == found
    for far, found in ((1024, [(2,)]), (1025, [(4,)])):
        assert answers([req_cons(-far), get_flags()])[0] == found
    failed = [get_flags(), *acked(0, ack(0)), event()]
    assert answers([*failed, event(), get_flags(), event(4095)])[0] == [(0,), (12,), (12,), (12,), (3,)]
    assert answers([*failed, rsp_prod(1025), event()])[0][-1] == (5,)
    assert answers([*failed, rsp_prod(1025), req_cons(-1025), get_flags()])[0][-1] == (4,)
    assert answers([*failed, guest_set_up(), event()])[0][-1] == (0,)
    assert answers([get_flags(), set_flags(16), rsp_prod(1025), set_flags(16)])[0] == [(0,), (13,), (5,)]
    assert answers([set_flags(16), set_key(bytes(39)), set_mapping(3, [0])])[0] == [(11,), (8,), (11,)]
    # refused at the header already, own counts and page as before
    found, kept = answers([get_flags(), *acked(0, header(1, 24)), own_on_page(7, 9), event()])
    assert found == [(0,), (12,)]
    assert kept["guest"]["req_prod"] == 8 and kept["guest"]["rsp_cons"] == 0
    assert kept["buffer"][4:12] == octets(7, 4) + octets(9, 4)


# The sequences. Each begins with both ends or the guest new, but for the first.


def worked_sequences():
    yield event()
    yield from served(get_flags(), set_flags(3))
    yield event()
    yield from begun(4)
    yield from served(get_flags(), set_flags(15), key("worked"), set_mapping(1, [3]), set_mapping(1, [4]))
    yield from served(set_mapping(128, [3, 0, 1]), set_mapping(128, [3, 0, 4]), get_flags())


def kind_sequences():
    """Every request that the writer makes, and what the host says to it, one after the other."""
    for n, queues in enumerate((1, 2, 5, 33, 64)):
        yield from begun(queues, 1000 * n, 504 * n)
        for count in LISTED:
            yield from served(set_mapping(count, [queues - 1, 0, queues // 2]))
            yield from served(set_mapping(count, [0] * min(count - 1, 2) + [queues]))
        for flags in (n, 15 - n):
            yield from served(set_flags(flags), get_flags())
        yield from served(key(f"kind {n}"))
    # entries that are no queue number by a high octet alone
    yield from begun(64)
    for entry in (255, 256, 2**32, 2**56 + 1, TOP * TOP - 1):
        yield from served(set_mapping(1, [entry]), set_mapping(2, [1, entry]))
    # a mapping whose entries all differ
    yield from served(set_mapping(64, range(64)))


def any_start(n, a, b):
    """One of the four requests, of some lengths."""
    return [
        get_flags(),
        set_flags(b % 16),
        key(f"any {b % 5}"),
        set_mapping(LISTED[a % 8], [b % 4, a % 3]),
        set_mapping(LISTED[a % 5], [a % 4, b % 5, 1]),
        set_mapping(128, [b % 4, 1, a % 4]) if a % 4 == 0 else set_flags(a % 16),
    ][n % 6]


def long_sequences():
    """Many requests one after the other, over the counts' end, from several places on."""
    for n, (requests, responses) in enumerate(
        ((TOP - 1500, TOP - 320), (TOP - 700, TOP - 200), (TOP - 333, TOP - 96), (TOP - 2047, TOP - 8), (1021, 8))
    ):
        yield from begun(4, requests, responses)
        numbers = seeded_below(f"long {n}", 60, 2**16)
        for at in range(30):
            yield from served(any_start(numbers[2 * at] // 64, numbers[2 * at], numbers[2 * at + 1]))


def wrap_sequences():
    """Requests and acks that fall into two parts, at the end and the start of their area, cut at many places."""
    yield from begun(6)
    for start, places in (
        (get_flags(), range(9)),
        (set_flags(9), range(17)),
        (key("wrap"), range(0, 49, 3)),
        (set_mapping(4, [5, 1, 2, 4]), range(1, 41, 3)),
    ):
        for before in places:
            base = [0, TOP, 3 * 2**20][before % 3]
            yield from empty_at(base - before, base - 8 * (before % 4))
            yield from served(start)
    # acks at any place: no host comes to a count that is no multiple of 8, and the rules speak of it all the same
    for start, length in ((get_flags(), 24), (set_flags(5), 16)):
        for before in range(length + 1):
            yield from empty_at(40 * before, [TOP, 1024, 2**31][before % 3] - before)
            yield from served(start)
    for before in (0, 1, 7, 8, 9, 500, 1016, 1017, 1023):
        yield from empty_at(TOP - before, TOP - 8)
        yield from served(set_mapping(128, [2, 1, 0, before % 7]), get_flags())


def slow_sequences():
    """A host that reads few octets at a time: the request is owed for several calls, and none of them reads."""
    for n, steps in enumerate(([1] * 9, [3, 0, 4, 1], [7, 1], [8], [9], [5, 2, 2], [0, 0, 1023], [1024])):
        requests = TOP - 4 * n
        yield from alone(requests, 8 * n)
        # the host has yet to read an area full of octets
        read = requests - 1024
        yield req_cons(read)
        yield get_flags()
        yield event()
        # an ack that is there too early is not read as long as octets are owed
        yield from acked(8 * n, ack_with_flags(n))
        for step in steps:
            read += step
            yield req_cons(read)
            yield event()
        yield event()
    for n, room in enumerate((0, 1, 15, 16, 17, 47, 48, 49, 1023)):
        yield from alone(5 * n, TOP - 12)
        yield req_cons(5 * n - 1024 + room)
        yield key(f"slow {n}")
        yield req_cons(5 * n - 1024 + room + 31)
        yield event()
        yield own_on_page(n, 1024 * n)
        yield req_cons(5 * n)
        yield event()
        yield from acked(TOP - 12, ack(n % 4))
        yield event()
    # the longest one, behind a host that has read nothing, little, and all
    for step in (1, 100, 500, 516, 1031, 1032):
        yield from alone(TOP - step, 0)
        yield req_cons(TOP - step - 3)
        yield set_mapping(128, [step, 1, TOP * step + 2])
        for read in range(step, 1032 + step, max(step, 200)):
            yield req_cons(TOP - step + min(read, 1021))
            yield event()
        yield event()


def held_back_sequences():
    """The host itself made slow: what it sees of the guest's own counts on the page is put back for one event, and the
    guest's next call puts it right."""
    for n, (part, unread) in enumerate(((0, 0), (3, 1010), (8, 1024), (20, 1008), (500, 1020), (1023, 1016), (1024, 1001))):
        requests, responses = TOP - 100 * n, TOP - 8 * n
        yield from begun(4, requests, responses)
        yield set_mapping(128, [3, 2, 1])
        yield own_on_page(requests + part, responses)
        yield host_event()
        yield event()
        if part < 8:
            yield host_event()
            yield event()
        # the host believes that its area is nearly full, and writes a part of the ack
        for behind in (unread, max(unread - 5, 0), 0):
            yield own_on_page(requests + 1032, responses - behind)
            yield host_event()
            yield event()
        yield event()
        yield from served(get_flags())


def far_sequences():
    """How far the host's counts may be away, one, the other, or both, at a start and at an event; then put right."""
    for n, far in enumerate(DISTANCES):
        requests, responses = [0, TOP - 6][n % 2], [0, TOP - 16][n // 2 % 2]
        yield from alone(requests, responses)
        yield req_cons(requests - far)
        yield get_flags()
        yield req_cons(requests)
        yield event()
        yield rsp_prod(responses + far)
        yield event()
        yield req_cons(requests - 1017 - far)
        yield event()
        yield rsp_prod(responses)
        yield set_flags(n % 20)
    for n, far in enumerate(DISTANCES[6:8] + DISTANCES[-4:]):
        for phase in range(4):
            yield from alone(80 * n, 8 * n)
            if phase == 1:
                yield set_mapping(128, [n])
            if phase > 1:
                yield set_flags(n)
            if phase == 3:
                yield from acked(8 * n, ack(4))
                yield event()
            for at_requests, at_responses in ((1024, far), (far, 0), (far, far)):
                yield req_cons(80 * n + [0, 1024, 16, 16][phase] - at_requests)
                yield rsp_prod(8 * n + at_responses)
                yield event()
                yield [get_flags(), set_flags(16), set_key(bytes(n)), set_mapping(n, [n])][(n + phase) % 4]
            yield event(4095)


def length_sequences():
    """A page of another length is refused before all else."""
    for n, length in enumerate(WRONG_LENGTHS):
        yield from begun(2, 7 * n, 8 * n)
        yield event(length)
        yield [get_flags(length), set_flags(16, length), set_key(b"", length), set_mapping(3, [1], length)][n % 4]
        yield set_flags(n)
        yield event(length)
        yield [set_mapping(2, [1], length), get_flags(length), set_flags(1, length), set_key(bytes(40), length)][n % 4]
        yield host_event(length)
        yield host_event()
        yield event(length)
        yield event()
        yield own_on_page(n, n)
        yield rsp_prod(2000)
        yield req_cons(2000)
        yield event(length)
        yield event()


WORDS = [0, 7, 8, 9, 15, 16, 17, 24, 256 + 8, 2**31, 2**31 + 8, 2**31 + 16, TOP - 8, TOP - 1]


def wrong_acks():
    """24 octets each, so that as many have come as the longest ack has."""
    for kind in (0, 2, 3, 255, 256 + 1, 2**24 + 1, 2**31 + 1, TOP - 1):
        yield header(kind, 8) + bytes(16)
        yield header(kind, 16) + bytes(16)
    for size in WORDS:
        yield header(1, size) + bytes(16)
    for status in range(6):
        yield ack(status) + seeded("behind", 8)
        yield ack_with_flags(15, status)
    for place in range(1, 8):
        for status in (0, 1, 3):
            yield header(1, 8 + 8 * (place % 2)) + octets(status + (1 << 8 * place), 8) + octets(place, 8)
    for flags in (0, 1, 14, 15, 16, 17, 31, 255, 256, 2**16 + 1, 2**32 + 15, 2**56, 2**63, TOP * TOP - 1):
        yield ack_with_flags(flags)
        yield ack_with_flags(flags, 2)


def wrong_sequences():
    """Each field of an ack wrong, and right, to each request; a call behind it shows whether the guest is done, waits or
    has failed."""
    listed = list(wrong_acks())
    yield from alone()
    yield rsp_prod(24)
    for n, data in enumerate(listed):
        yield guest_set_up()
        yield get_flags()
        yield patch(ring.RESPONSES, data)
        yield event()
        yield guest_set_up()
        yield [set_flags(n % 16), set_mapping(1, [n]), set_flags(n % 16), key("wrong")][n % 4]
        yield event()
        if n % 3 == 0:
            yield event()


def cut_sequences():
    """Acks an octet at a time, and cut into two at every place, and never whole."""
    for n, (start, data) in enumerate(
        ((get_flags(), ack_with_flags(6)), (set_flags(2), ack(3)), (key("cut"), ack(0)), (get_flags(), ack(2)))
    ):
        yield from alone(1020, TOP - 7 - n)
        yield start
        yield from put_ack(TOP - 7 - n, data)
        for come in range(len(data) + 1):
            yield rsp_prod(TOP - 7 - n + come)
            yield event()
    for place in range(24):
        yield from alone(place, 1024 * place - place)
        yield get_flags()
        yield from acked(1024 * place - place, ack_with_flags(place % 16), place)
        yield event()
        if place % 5 == 0:
            yield event()
        yield rsp_prod(1024 * place - place + 24)
        yield event()
    for place in range(16):
        yield from alone(place, -9 * place)
        yield set_flags(place)
        # what stands in the area behind what has come changes before it comes
        yield from acked(-9 * place, bytes(16), 0)
        yield from acked(-9 * place, ack(place % 4)[:place])
        yield event()
        yield from put_ack(-9 * place + place, ack(place % 4)[place:])
        yield rsp_prod(-9 * place + 16)
        yield event()
    # a header that no ack has, cut at every place: 12 comes with its eighth octet and not before
    for place in range(9):
        for n, size in enumerate((24, 0)):
            yield from alone(0, 1024 * n - place)
            yield set_mapping(2, [1, 0])
            yield from acked(1024 * n - place, header(1, size), place)
            yield event()
            yield rsp_prod(1024 * n - place + 8)
            yield event()
            yield event()
    # octets read before they are overwritten stay read; the ack is refused by those that come last, and what was
    # counted before stays counted
    for part in (1, 4, 8, 12, 15):
        yield from alone(0, 1020)
        yield set_flags(1)
        yield from acked(1020, ack(1), part)
        yield event()
        yield from put_ack(1020, seeded("over", part))
        yield rsp_prod(1036)
        yield event()
        yield from alone(0, 1020)
        yield set_flags(1)
        yield from acked(1020, ack(1), part)
        yield event()
        yield own_on_page(part, part)
        yield from acked(1020, b"\x00" * 4 + b"\x00\x00\x00\x01" + b"\x05" * 8)
        yield event()
        yield event()


def behind_sequences():
    """Octets behind an ack stay, and are the start of the next one; an ack that is there before the request is."""
    for n, acks in enumerate(
        (
            [ack_with_flags(1), ack_with_flags(2), ack_with_flags(3)],
            [ack(1), ack(2), ack(3)],
            [ack(3), ack_with_flags(9), ack(0)],
            [ack_with_flags(15), ack(2), ack_with_flags(16)],
        )
    ):
        for begin in (0, TOP - 20):
            yield from alone(begin, begin - 8 * n)
            yield from acked(begin - 8 * n, b"".join(acks))
            yield event()
            for data in acks:
                yield get_flags()
                yield event()
                yield event()
            yield get_flags()
            yield event()
            yield key("behind")
    # an area full of octets, of which one ack is read
    for n in range(4):
        yield from alone(0, 256 * n - 8)
        yield from put_ack(256 * n - 8, ack_with_flags(n) + ack(1))
        yield rsp_prod(256 * n - 8 + 1024)
        yield event()
        yield get_flags()
        yield event()
        yield event()
        yield set_flags(n)
        yield event()


def other_sequences():
    """The host's own ack to a request of another type."""
    others = [get_flags(), set_flags(5), key("other"), set_mapping(2, [1, 3])]
    for asked in range(4):
        for answered in range(4):
            yield from begun(3, 100 * asked, 24 * answered)
            yield from served(others[answered])
            # a new guest with the same counts reads that ack once more
            length = [8, 16, 48, 24][answered]
            yield guest_set_up()
            yield counts(100 * asked + length, 100 * asked + length, 24 * answered, 24 * answered)
            yield others[asked]
            yield rsp_prod(24 * answered + [24, 16, 16, 16][answered])
            yield event()
            yield event()


def failed_sequences():
    """Behind a refused ack every call with good counts is refused by 12, until setup."""
    for n, data in enumerate((ack(4), header(1, 7), ack_with_flags(0), header(2, 8) + bytes(8))):
        requests, responses = TOP - 9 * n, 8 * n - 16
        yield from begun(4, requests, responses)
        yield set_flags(n)
        yield from acked(responses, data)
        yield own_on_page(n, 2**31)
        yield event()
        # also where the ack is put right
        yield from put_ack(responses, ack(0))
        yield event()
        yield from (get_flags(), set_flags(1), key("failed"), set_mapping(1, [1]))
        yield from (set_flags(16), set_key(b"short"), set_mapping(3, [1]))
        yield rsp_prod(responses + 1025)
        yield event()
        yield get_flags()
        yield req_cons(requests - 1025)
        yield event()
        yield set_flags(16)
        yield event(4095)
        yield key("failed")
        yield from begun(4, requests, responses)
        yield event()
        yield from served(set_flags(n), get_flags())


def outstanding_sequences():
    """A start while a request is outstanding: owed, written, or with a part of its ack read. 13 comes before 8 and 11,
    and the request goes on as if nothing had been."""
    bad = [set_flags(16), set_flags(2**32), set_flags(TOP * TOP - 1), set_key(b""), set_key(bytes(39)), set_key(bytes(41))]
    bad += [set_mapping(count, [1]) for count in (0, 3, 5, 127, 129, 130, 192, 256)]
    good = [get_flags(), set_flags(7), key("good"), set_mapping(1, [0]), set_mapping(128, [2, 1])]
    yield from begun(4)
    for start in bad:
        yield start
    yield from served(set_flags(15))
    for start in bad:
        yield start
    for n, first in enumerate(good):
        yield from begun(4, 1000 * n, 512 * n)
        yield first
        for start in good:
            yield start
        yield bad[n]
        yield host_event()
        yield good[(n + 1) % 5]
        yield event()
        if n == 4:
            yield bad[9]
            yield good[0]
            yield host_event()
            yield event()
        yield event()
    yield from alone(0, 1020)
    yield get_flags()
    for come in (5, 8, 15, 23):
        yield from acked(1020, ack_with_flags(11), come)
        yield event()
        yield set_flags(come)
        yield bad[come % 6]
    yield rsp_prod(1044)
    yield get_flags()
    yield event()
    # both ends of the list of what a start is refused by
    yield from alone()
    yield rsp_prod(1025)
    yield set_key(b"")
    yield req_cons(-1025)
    yield set_mapping(0, [1])
    yield set_key(b"", 4097)


def garbage_sequences():
    """The page's own req_prod and rsp_cons, and all that lies behind the areas, must not matter to the guest."""
    for n in range(12):
        requests, responses = seeded_below(f"start {n}", 2, TOP)
        responses -= responses % 8
        yield from begun(4, requests, responses)
        if n % 3 == 0:
            yield fill(2064, BUFFER - 2064, n)
        if n % 3 == 1:
            yield fill(ring.REQUESTS, 2 * ring.AREA, n)
        yield own_on_page(*seeded_below(f"idle {n}", 2, TOP))
        yield event()
        yield own_on_page(*seeded_below(f"begun {n}", 2, TOP))
        yield any_start(n, 7 * n, n)
        yield host_event()
        yield own_on_page([0, TOP - 1, requests][n % 3], [responses + 16, 0, TOP - 1][n % 3])
        yield event()
        yield own_on_page(requests + 1032, responses)
        yield host_event()
        yield own_on_page(*seeded_below(f"last {n}", 2, TOP))
        yield event(4096 + n % 2)
        yield event()


def random_sequences():
    """Hosts and guests of all sorts. This program plays along, so as to know both ends' counts."""
    kept = at_start()
    for n in range(29):
        numbers = iter(seeded_below(f"guest sequence {n}", 120, TOP))
        for case in random_steps(kept, numbers):
            act(kept, *case)
            yield case


def random_steps(kept, numbers):
    yield from begun(4, random_start(numbers), random_start(numbers))
    for _ in range(16):
        state = kept["guest"]
        choice, a, b = next(numbers), next(numbers), next(numbers)
        if choice % 16 < 5:
            yield any_start(a // 64, a % 2**16, b % 2**16)
        elif choice % 16 < 10:
            yield host_event()
        elif choice % 16 < 14:
            yield event()
        elif choice % 16 == 14:
            yield own_on_page(a, b)
            yield event()
        else:
            yield from hostile(bytes(kept["buffer"]), state, a, b)


def hostile(buffer, state, a, b):
    """A wrong page for one event, put right behind it, or a new guest with the counts of the one before."""
    right = [guest.count_at(buffer, place) for place in COUNT_PLACES.values()]
    if a % 3 == 0:
        yield event(WRONG_LENGTHS[b % len(WRONG_LENGTHS)])
    elif a % 3 == 1:
        yield req_cons(state["req_prod"] - 1000 - b % 50)
        yield rsp_prod(state["rsp_cons"] + 1000 + a % 50)
        yield event()
        yield req_cons(right[0])
        yield rsp_prod(right[3])
    else:
        yield guest_set_up()
        yield event()
        yield counts(*right)


def all_cases():
    for part in (
        worked_sequences,
        kind_sequences,
        long_sequences,
        wrap_sequences,
        slow_sequences,
        held_back_sequences,
        far_sequences,
        length_sequences,
        wrong_sequences,
        cut_sequences,
        behind_sequences,
        other_sequences,
        failed_sequences,
        outstanding_sequences,
        garbage_sequences,
        random_sequences,
    ):
        yield from part()


def files():
    """Each stored file, by its path below crates/, with the octets that it must have."""
    agree_with_papers()
    cases = list(all_cases())
    return program_files("guest_vectors", cases, expected(cases))
