"""The cases of the capture report, with what is known of it from elsewhere.

The program `report_vectors` runs them from its files of cases. It keeps a settings file and a capture, at its start both
empty, and prints the report on them, on each beginning of one of them, or on both with zeros behind them.
"""

import captures
import report
import report_example
from captures import ETHERNET, IPV4, IPV6, RAW_IP, write, write_header, write_record
from cases import program_files
from messages import GET_FLAGS, SET_FLAGS, SET_KEY, SET_MAPPING, message, number, octets
from messages_cases import fields
from packet_cases import WHOLE, one_of_each, published_packets, shaped
from seeds import seeded, seeded_below
from toeplitz_cases import RSS_KEY

# The body is a settings file, a capture, nothing, nothing, or two lengths of four octets each.
SETTINGS, CAPTURE, CAPTURE_CUTS, SETTINGS_CUTS, STRETCHED = range(5)

ORDERS = ("little", "big")
BOTH = [(order, link) for order in ORDERS for link in (ETHERNET, RAW_IP)]
TCP = 6


# Reports asked for: a kind, the settings and the capture, and for stretched ones the two lengths.


def whole(settings, capture):
    return CAPTURE, settings, capture, None


def capture_cuts(settings, capture):
    return CAPTURE_CUTS, settings, capture, None


def settings_cuts(settings, capture):
    return SETTINGS_CUTS, settings, capture, None


def stretched(settings, capture, settings_length=None, capture_length=None):
    """Zeros behind the settings, the capture or both, up to so many octets in all."""
    lengths = (settings_length or len(settings), capture_length or len(capture))
    return STRETCHED, settings, capture, lengths


def case_list(asked):
    """The cases that ask for these reports. Settings or a capture that are kept already are not given again."""
    kept_settings, kept_capture = b"", b""
    for kind, settings, capture, lengths in asked:
        if settings != kept_settings:
            yield SETTINGS, settings
        if capture != kept_capture:
            yield CAPTURE, capture
        elif kind == CAPTURE:
            yield stretched_case(len(settings), len(capture))
        if kind == STRETCHED:
            yield stretched_case(*lengths)
        elif kind != CAPTURE:
            yield kind, b""
        kept_settings, kept_capture = settings, capture


def stretched_case(settings_length, capture_length):
    return STRETCHED, octets(settings_length, 4) + octets(capture_length, 4)


# Settings and captures.


def settings_file(queues, *requests):
    return bytes([queues]) + b"".join(requests)


def flags(value):
    return message(SET_FLAGS, octets(value, 8))


def key(name):
    return message(SET_KEY, seeded(name, 40))


def mapping(entries):
    return message(SET_MAPPING, fields(entries))


def full_settings(name, queues, entries, flag_values=15):
    """A key, a mapping over the queues, and flags."""
    return settings_file(queues, key(name), mapping(seeded_below(name, entries, queues)), flags(flag_values))


# Under these settings the queue tells which packets have a hash.
HASHED_ON_ONE = settings_file(2, mapping([1]), flags(15))


def frame(content, kind=IPV4):
    """An Ethernet frame between two hosts."""
    return seeded("hardware addresses", 12) + kind.to_bytes(2, "big") + content


def linked(link, packets):
    """IP packets as they are captured at a link."""
    if link == RAW_IP:
        return list(packets)
    return [frame(packet, IPV6 if packet[0] >> 4 == 6 else IPV4) for packet in packets]


def tcp_packet(name="a segment"):
    return shaped(name, 24, {0: 0x45, 9: TCP, **WHOLE})


def few_packets(name):
    """One of each kind that has a hash, as short as can be."""
    return list(one_of_each(name))[:4]


def agree_with_papers():
    """This program itself gives document 02's worked report, and counts Microsoft's published packets by their hashes."""
    for order, link in BOTH:
        nothing = write_header(order, link)
        assert report.text(bytes([1]), nothing) == "queue 0 0 0\nunhashed 0\ntotal 0 0\n"
    packets, hashes = zip(*published_packets())
    settings = settings_file(64, message(SET_KEY, RSS_KEY), mapping(range(64)), flags(15))
    for order, link in BOTH:
        records = linked(link, packets)
        (queues, unhashed, _) = report.answer(settings, write(order, link, records))[1]
        for queue, counted in enumerate(queues):
            held = [record for record, value in zip(records, hashes) if value % 64 == queue]
            assert counted == (len(held), sum(len(record) for record in held)), queue
        assert unhashed == 0


# Whole captures.


def worked_cases():
    """Nothing kept, a capture alone, one queue and no records."""
    yield whole(b"", b"")
    yield whole(b"", write_header("little", ETHERNET))
    yield whole(bytes([1]), b"")
    for order, link in BOTH:
        yield whole(bytes([1]), write_header(order, link))


def kind_cases():
    """Packets of all kinds, several for each queue, under settings that spread them, and under those of setup."""
    published = [packet for packet, _ in published_packets()]
    for (order, link), more in zip(BOTH, (published, [], [], published)):
        capture = write(order, link, linked(link, more + list(one_of_each("kinds")) + few_packets("more")))
        yield whole(full_settings(f"kinds {order} {link}", 8, 16), capture)
        yield whole(bytes([8]), capture)
    for queues, entries in ((1, 1), (2, 8), (3, 4), (7, 32), (64, 128)):
        yield whole(full_settings(f"kinds {queues}", queues, entries), capture)


def flag_cases():
    for order, link, values in (("little", ETHERNET, range(16)), ("big", RAW_IP, (1, 2, 4, 8, 15))):
        capture = write(order, link, linked(link, one_of_each("flags")))
        for value in values:
            yield whole(full_settings("flags", 5, 4, value), capture)


def frame_cases():
    """What a frame says of its content, with a packet behind it that would have a hash; tags, and other packets than
    the frame says."""
    kinds = [IPV4, IPV6, 0x0806, 0x8100, 0x88A8, 0x88CC, 0x8847, 0x0000, 0x0008, 0x0801, 0x0802, 0x0880, 0x0900]
    kinds += [0x08DD, 0x8600, 0x86DC, 0x86DF, 0xDD86, 0x87DD, 0x06DD, 0x8800, 0x0600, 0x002E, 0xFFFF]
    for n, kind in enumerate(kinds):
        yield whole(HASHED_ON_ONE, write(ORDERS[n % 2], ETHERNET, [frame(tcp_packet(), kind)]))
    others = [frame(packet, kind) for packet in few_packets("others") for kind in (IPV4, IPV6)]
    tagged = [frame(b"\x00\x07" + kind.to_bytes(2, "big") + tcp_packet(), 0x8100) for kind in (IPV4, IPV6)]
    lower = [bytes(place) + b"\x08\x00" + tcp_packet() for place in (0, 10, 11, 13, 14, 16)]
    for order, link in (("little", ETHERNET), ("big", RAW_IP)):
        yield whole(HASHED_ON_ONE, write(order, link, others + tagged + lower))
    by_chance = [shaped(f"chance {n}", 60, {0: 0x45, 9: TCP, 12: 0x08, 13: 0, 14: (0x45, 0x60)[n % 2]}) for n in range(4)]
    yield whole(HASHED_ON_ONE, write("little", ETHERNET, by_chance))


def short_cases():
    """Records of 0 to 15 octets, which hold a part of a frame or of a packet, and packets about the least lengths."""
    starts = [frame(b"\x45", IPV4), tcp_packet(), frame(b"\x60", IPV6), b"\x60" * 15]
    for (order, link), start in zip(BOTH, starts):
        yield whole(HASHED_ON_ONE, write(order, link, [start[:length] for length in range(16)]))
    for first, protocol_at, lengths in ((0x45, 9, (0, 19, 20, 23, 24)), (0x6B, 6, (39, 40, 43, 44))):
        for n, length in enumerate(lengths):
            packet = shaped(f"short {first} {length}", length, {0: first, protocol_at: TCP})
            kind = IPV4 if first == 0x45 else IPV6
            yield whole(HASHED_ON_ONE, write(ORDERS[n % 2], ETHERNET, [frame(packet, kind)]))
            yield whole(HASHED_ON_ONE, write(ORDERS[n % 2], RAW_IP, [packet]))


def length_cases():
    """Records about the longest, made long by zeros: whole, an octet short, and with more behind them."""
    for order, link in BOTH:
        start = linked(link, [tcp_packet()])[0]
        for length in (1514, 2047, 2048, 2049, 2050, 4096, 65000):
            capture = write_header(order, link) + write_record(order, start, captured=length)
            end = captures.HEADER_LENGTH + captures.RECORD_HEADER_LENGTH + length
            for total in (end - 1, end, end + 1, end + 15, end + 16, end + 32):
                if length in (2048, 2049) or total == end:
                    yield stretched(HASHED_ON_ONE, capture, capture_length=total)


def original_cases():
    """The original length makes no difference: smaller, larger, none, and lengths that would be refused."""
    for order, link in BOTH:
        record = linked(link, [tcp_packet()])[0]
        lengths = [0, 1, len(record) - 1, len(record) + 1, 1514, 2048, 2049, 65536, 2**31, 2**32 - 1]
        content = b"".join(write_record(order, record, n * 1000, original=n) for n in lengths)
        yield whole(HASHED_ON_ONE, write_header(order, link) + content)


def captured_cases():
    """Captured lengths that the octets behind them do not bear out, some of which would run over 32 bits."""
    lengths = [40, 39, 38, 24, 23, 8, 0, 41, 56, 256 + 40, 2047, 2048, 2049, 2**16 + 40, 2**24 + 40]
    lengths += [2**31, 2**31 + 40, 2**32 - 80, 2**32 - 56, 2**32 - 40, 2**32 - 16, 2**32 - 1]
    content = b"\x45" + bytes(39)  # what is left of it may be read as records of no octets
    for n, length in enumerate(lengths):
        order, link = BOTH[n % 4]
        start = write_header(order, link)
        if n % 2 or length > 2**16:
            yield whole(HASHED_ON_ONE, start + write_record(order, content, captured=length))
        if n % 2 == 0 or length > 2**16:
            good = write_record(order, content)
            yield whole(HASHED_ON_ONE, start + good + write_record(order, content, captured=length))


def other_order_cases():
    """Record headers in the other order than the capture's: as good as none, unless the length reads alike."""
    for order, other in (ORDERS, ORDERS[::-1]):
        start = write_header(order, RAW_IP)
        for packets in ([tcp_packet()], [tcp_packet(), tcp_packet()], [b""], [b"", b"", b""]):
            yield whole(HASHED_ON_ONE, start + b"".join(write_record(other, packet) for packet in packets))
        yield whole(HASHED_ON_ONE, start + write_record(order, tcp_packet()) + write_record(other, tcp_packet()))
        yield whole(HASHED_ON_ONE, start + write_record(other, b"") + write_record(order, tcp_packet()))


# Headers.


def bad_headers(order):
    """Other captures' magics and this one's with a bit wrong, other versions, and other links."""
    magics = [0xA1B23C4D, 0xA1B2CD34, 0x0A0D0D0A, 0xA1E2CB12, 0xC3D4A1B2, 0xB2A1D4C3, 0xD4C3B2A1, 0, 0xFFFFFFFF]
    magics += [captures.MAGIC ^ 1 << bit for bit in (0, 7, 8, 12, 16, 22, 24, 31)]
    versions = [(2, 3), (2, 5), (3, 4), (1, 4), (0, 4), (2, 0), (4, 2), (4, 4), (2, 2), (0x0204, 0), (0, 0x0204)]
    versions += [(0x0200, 0x0400), (0x0402, 4), (2, 0x0402), (0x0102, 4), (2, 0x0104), (2, 0x8004), (0x8002, 4)]
    links = [0, 2, 12, 14, 65, 100, 102, 113, 165, 228, 229, 256, 257, 0x0165, 0x6501, 0x10001, 0x10065, 0x1000065]
    links += [0x01000000, 0x65000000, 0x00010000, 0x80000001, 0x80000065, 0x10000001, 2**32 - 1]
    for magic in magics:
        yield write_header(order, ETHERNET, magic=magic)
    for version in versions:
        yield write_header(order, RAW_IP, version=version)
    for link in links:
        yield write_header(order, link)


def header_cases():
    for order, other in (ORDERS, ORDERS[::-1]):
        for header in bad_headers(order):
            yield whole(bytes([1]), header)
        good, turned = write_header(order, ETHERNET), write_header(other, ETHERNET)
        for mixed in (good[:4] + turned[4:], good[:20] + turned[20:], good[:4] + turned[4:8] + good[8:]):
            yield whole(bytes([1]), mixed)
        # what is not looked at
        for n, value in enumerate((0, 1, 23, 2**31, 2**32 - 1)):
            header = write_header(order, ETHERNET, zone=value, accuracy=2**32 - 1 - value, snap=value)
            yield whole(HASHED_ON_ONE, header + write_record(order, frame(tcp_packet()), when=n * 10**9 + value))


# Settings.


def count_cases():
    """Every queue count, with all that has a hash on the last queue; and counts that are none."""
    capture = write("little", RAW_IP, few_packets("counts") + [b"", tcp_packet()])
    for queues in range(1, 65):
        yield whole(settings_file(queues, mapping([queues - 1]), flags(3)), capture)
    for queues in (0, 65, 66, 127, 128, 129, 192, 255):
        yield whole(bytes([queues]), capture)
        yield whole(settings_file(queues, flags(15)), capture)


def bad_requests():
    """Messages that get a nonzero status from a host with four queues, of a few octets each."""
    for kind, sizes in ((GET_FLAGS, (1, 8)), (SET_FLAGS, (0, 7, 9, 16)), (SET_KEY, (0, 8, 39, 41)), (SET_MAPPING, (0, 4, 12))):
        for size in sizes:
            yield message(kind, bytes(size))
    for value in (16, 31, 255, 256, 2**32 + 1, 2**56, 2**63 + 15):
        yield flags(value)
    for entries in ([4], [5], [255], [256], [2**32 + 1], [2**56], [0, 1, 2, 4], [4, 0], [0, 1, 2], [0] * 5, [0] * 6):
        yield mapping(entries)
    for kind in (0, 1, 6, 7, 255, 258, 0x10002, 0x02000000, 0x80000003, 2**32 - 1):
        yield message(kind, b"")
        yield message(kind, octets(1, 8))


def request_cases():
    """Each bad message alone, and between good ones, which do not mend it; and one that says more octets than there are."""
    capture = write("big", RAW_IP, few_packets("requests"))
    before = mapping([3, 1]) + flags(15)
    for bad in bad_requests():
        yield whole(settings_file(4, bad), capture)
        yield whole(settings_file(4, before, bad, message(GET_FLAGS, b"")), capture)
    for kind in (GET_FLAGS, SET_FLAGS, SET_KEY, SET_MAPPING, 9):
        for size in (9, 2**16 + 8, 2**31 + 8, 2**32 - 8, 2**32 - 1):
            yield whole(settings_file(4, before, octets(kind, 4) + octets(size, 4) + octets(1, 8)), capture)


def good_request_cases():
    """Messages of every type, in several orders; the last of a type is the one that counts."""
    capture = write("little", ETHERNET, linked(ETHERNET, few_packets("good") + few_packets("good too")))
    get, table = message(GET_FLAGS, b""), mapping([2, 0, 3, 1])
    for requests in (
        [],
        [get],
        [get, get, get],
        [flags(15)],
        [flags(15), table],
        [key("first"), flags(15), table],
        [flags(15), key("first"), table, get],
        [table, key("first"), flags(15), key("second")],
        [table, mapping([3]), key("first"), flags(15)],
        [mapping([3]), table, key("first"), flags(15)],
        [table, key("first"), flags(15), flags(5)],
        [table, key("first"), flags(15), flags(0)],
        [table, key("first"), flags(0), flags(10), get],
    ):
        yield whole(settings_file(4, *requests), capture)


def long_request_cases():
    """Payloads of zeros about 1,024 octets: a mapping of 128 entries is good, and nothing longer is."""
    capture = write("little", RAW_IP, few_packets("long"))
    for kind in (SET_MAPPING, SET_KEY, SET_FLAGS, GET_FLAGS, 1):
        for size in (40, 512, 1016, 1023, 1024, 1025, 1032, 1600, 2048, 4096, 65000):
            settings = settings_file(4, mapping([3]), flags(15), octets(kind, 4) + octets(size, 4))
            end = len(settings) + size
            for total in (end - 1, end, end + 1) if (kind, size) == (SET_MAPPING, 1024) else (end,):
                yield stretched(settings, capture, settings_length=total)


# The order of the refusals, and the limits of the files.


def order_cases():
    """Each thing good or bad: the first that is bad is the one that is told."""
    record = write_record("little", frame(tcp_packet()))
    for count in (b"\x02", b"\x41", b""):
        for requests in (flags(15), flags(16), flags(15)[:-1]) if count else (b"",):
            for header in (write_header("little", ETHERNET), write_header("little", 2), write_header("little", ETHERNET)[:23]):
                for content in (record, record[:-1]) if len(header) == captures.HEADER_LENGTH else (b"",):
                    yield whole(count + requests, header + content)


def limit_cases():
    """Files of 65,536 octets and of one more, good and bad by what else they are."""
    most = report.MOST
    # a record of 8 octets, behind which the room up to the most is a multiple of 16, the length of a record of none
    full = write("big", RAW_IP, [bytes(8)])
    odd = write("little", ETHERNET, [bytes(9)])
    for settings in (bytes([3]), b"", bytes([65]), settings_file(3, flags(16)), HASHED_ON_ONE):
        for capture in (full, odd, write_header("little", 2), b""):
            for length in (most - 16, most - 1, most, most + 1, most + 64):
                if capture in (full, odd) or length > most - 1:
                    yield stretched(settings, capture, capture_length=length)
        for length in (most - 1, most, most + 1):
            yield stretched(settings, full, settings_length=length)
            yield stretched(settings, full, length, most + 1)
            yield stretched(settings, full, length, most)


# Files cut at every octet.


def cut_cases():
    for order, link in BOTH:
        packets = few_packets(f"cuts {order} {link}")
        records = linked(link, [packets[1], packets[0], packets[3]])
        capture = write(order, link, [*records, b"", b"\x45"])
        yield capture_cuts(full_settings("cuts", 3, 4), capture)
    yield capture_cuts(bytes([0]), write_header("little", ETHERNET))
    yield capture_cuts(settings_file(1, flags(16)), write_header("little", ETHERNET))
    capture = write("little", RAW_IP, few_packets("cut settings"))
    get, table = message(GET_FLAGS, b""), mapping([2, 0, 3, 1])
    yield settings_cuts(settings_file(4, get, key("cuts"), table, flags(15), get, flags(2)), capture)
    yield settings_cuts(settings_file(4, flags(15), key("cuts"), flags(16), table), capture)
    yield settings_cuts(settings_file(4, table, flags(15), message(7, b"")), capture[:-1])
    yield settings_cuts(settings_file(65, flags(15)), capture)


# Files of all sorts by the seed.


def random_settings(name):
    """Mostly good messages, mostly under a good count."""
    count, requests, kind = seeded_below(name, 3, 1000)
    queues = [1, 2, 3, 5, 8, 13, 64, 65][count % 8]
    out = bytes([queues])
    for n in range(requests % 4):
        entries = 2 ** (seeded_below(f"{name} {n}", 1, 4)[0])
        table = mapping(seeded_below(f"{name} {n}", entries, min(queues + count // 100 % 2, 64)))
        out += [table, key(f"{name} {n}"), flags(seeded_below(f"{name} {n}", 1, 17)[0]), table][(kind + n) % 4]
    return out + flags(15)


def random_capture(name):
    """A few records in a good capture."""
    packets, kind = seeded_below(name, 2, 1000)
    order, link = BOTH[kind % 4]
    records = []
    for n in range(packets % 5):
        packet = list(one_of_each(f"{name} {n}"))[(kind + 3 * n) % 8]
        records.append(packet if link == RAW_IP else frame(packet, [IPV4, IPV6, IPV4, 0x0806][(kind + n) % 4]))
    return write(order, link, records)


def changed(name, data):
    """One octet changed, mostly in the first half."""
    at, value = seeded_below(f"{name} change", 2, 2**16)
    at %= len(data) // 2 + 1 if value % 3 else len(data)
    return data[:at] + bytes([value >> 8]) + data[at + 1 :]


def random_cases():
    for n in range(24):
        settings, capture = random_settings(f"settings {n}"), random_capture(f"capture {n}")
        yield whole(settings, capture)
        if n % 3 == 0:
            yield whole(changed(f"settings {n}", settings), capture)
        elif n % 3 == 1:
            yield stretched(settings, capture, capture_length=len(capture) + n)
        else:
            yield whole(settings, changed(f"capture {n}", capture))


def all_reports():
    for part in (
        worked_cases,
        kind_cases,
        flag_cases,
        frame_cases,
        short_cases,
        length_cases,
        original_cases,
        captured_cases,
        other_order_cases,
        header_cases,
        count_cases,
        request_cases,
        good_request_cases,
        long_request_cases,
        order_cases,
        limit_cases,
        cut_cases,
        random_cases,
    ):
        yield from part()


def expected(cases):
    settings, capture = b"", b""
    for kind, body in cases:
        if kind == SETTINGS:
            settings = body
        elif kind == CAPTURE:
            capture = body
            yield report.text(settings, capture)
        elif kind == CAPTURE_CUTS:
            yield from (report.text(settings, capture[:length]) for length in range(len(capture) + 1))
        elif kind == SETTINGS_CUTS:
            yield from (report.text(settings[:length], capture) for length in range(len(settings) + 1))
        else:
            lengths = number(body[:4]), number(body[4:])
            yield report.text(settings.ljust(lengths[0], b"\0"), capture.ljust(lengths[1], b"\0"))


def files():
    """Each stored file, by its path below crates/, with the octets that it must have."""
    agree_with_papers()
    cases = list(case_list(all_reports()))
    return {
        **program_files("report_vectors", cases, expected(cases)),
        **report_example.program_files(report_example.files()),
    }
