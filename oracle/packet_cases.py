"""The cases of packets: what kind each is, its hash and its queue, with what is known of them from elsewhere.

The program `packet_vectors` runs them from its files of cases. A settings case holds for the packets behind it.
"""

import packets
from cases import program_files
from messages import settings_at_setup
from seeds import seeded, seeded_below
from toeplitz import single_bit
from toeplitz_cases import COUNTING_KEY, RSS_KEY, RSS_VECTORS, ZERO_KEY, ends

SETTINGS, PACKET = range(2)

LISTED = [1, 2, 4, 8, 16, 32, 64, 128]
UDP = 17

# Octets 6 and 7 of an IPv4 packet that is no fragment: the don't-fragment bit alone, as most senders write them.
WHOLE = {6: 0x40, 7: 0}

# Lengths around 20, 24, 40 and 44, around the octets that are looked at, and some that end in the hash input.
LENGTHS = [0, 1, 6, 7, 9, 10, 12, 16, 19, 20, 21, 22, 23, 24, 25, 30, 39, 40, 41, 42, 43, 44, 45, 60]


def shaped(name, length, places):
    """So many seeded octets, with the listed ones put in their places as far as the length goes."""
    octets = bytearray(seeded(name, length))
    for place, octet in places.items():
        if place < length:
            octets[place] = octet
    return bytes(octets)


def tcp_rest():
    """A TCP header behind its ports: sequence and acknowledgement, header length, flags, window, checksum, urgent."""
    return seeded("sequence", 8) + bytes([0x50, 0x10]) + bytes([0x20, 0, 0, 0, 0, 0])


def ipv4_header(addresses, behind, field, protocol):
    """An IPv4 header without options, before so many octets; `field` is the 16 bits of fragment flags and offset."""
    start = bytes([0x45, 0]) + (20 + behind).to_bytes(2, "big")
    return start + bytes([0x12, 0x34]) + field.to_bytes(2, "big") + bytes([64, protocol, 0, 0]) + addresses


def ipv4_packet(data, protocol):
    """An IPv4 header around two addresses, and what follows it."""
    addresses, behind = data[:8], data[8:] + tcp_rest()
    return ipv4_header(addresses, len(behind), 0x4000, protocol) + behind


def ipv6_packet(data, protocol):
    addresses, behind = data[:32], data[32:] + tcp_rest()
    return bytes([0x60, 0, 0, 0]) + len(behind).to_bytes(2, "big") + bytes([protocol, 64]) + addresses + behind


def one_of_each(name):
    """A packet of each kind, TCP packets that end just before their ports do, one with options, and a fragment."""
    yield shaped(f"{name} 0", 20, {0: 0x45, 9: UDP})
    yield shaped(f"{name} 1", 24, {0: 0x45, 9: 6, **WHOLE})
    yield shaped(f"{name} 2", 40, {0: 0x61, 6: UDP})
    yield shaped(f"{name} 3", 44, {0: 0x6C, 6: 6})
    yield shaped(f"{name} 4", 23, {0: 0x45, 9: 6, **WHOLE})
    yield shaped(f"{name} 5", 43, {0: 0x60, 6: 6})
    yield shaped(f"{name} 6", 44, {0: 0x46, 9: 6, **WHOLE})
    yield shaped(f"{name} 7", 24, {0: 0x45, 9: 6, 6: 0x20, 7: 0})


def settings_case(flags, key, table):
    return SETTINGS, bytes([flags]) + key + bytes(table)


def settings_of(body):
    # entries of a table that an interface can have are below its queue count, here the largest
    return {**settings_at_setup(64), "flags": body[0], "key": body[1:41], "table": list(body[41:])}


def under(flags, key, table, each):
    """The packets under those settings."""
    yield settings_case(flags, key, table)
    for packet in each:
        yield PACKET, packet


def published_packets():
    """Each row of Microsoft's suite as two packets, with their hashes: of addresses alone, and with the ports."""
    for vector in RSS_VECTORS:
        (_, plain), (data, tcp) = ends(vector)
        make = ipv4_packet if len(data) == 12 else ipv6_packet
        yield make(data, UDP), plain
        yield make(data, 6), tcp


def agree_with_papers():
    """This program itself gives document 01's worked lines and the published values."""
    assert packets.queue([2, 0, 3, 1], 0x01030107) == 1
    worked = settings_of(settings_case(15, COUNTING_KEY, [2, 0, 3, 1])[1])
    # an input is 8 octets at least; zeros behind 80 80 add no window
    data = b"\x80\x80" + bytes(10)
    assert packets.steer(worked, ipv4_packet(data, 6)) == (1, 0x01030107, 1)
    assert packets.steer(worked, ipv4_packet(data, UDP)) == (0, 0x01030107, 1)
    data = bytes(35) + b"\x01"
    assert packets.steer(worked, ipv6_packet(data, 6)) == (3, 0x92129313, 1)
    # fragments with the same addresses get the same answer, of the plain type
    for some in (list(datagram()), list(strangers("", seeded("strangers", 8), FRAGMENTS))):
        answers = {packets.steer(worked, packet) for packet in some}
        assert len(some) > 2 and len(answers) == 1 and answers.pop()[0] == 0
    published = settings_of(settings_case(15, RSS_KEY, [0])[1])
    for packet, value in published_packets():
        assert packets.steer(published, packet)[1] == value, packet


def worked_cases():
    four, six = b"\x80\x80" + bytes(10), bytes(35) + b"\x01"
    both = [ipv4_packet(four, 6), ipv4_packet(four, UDP), ipv6_packet(six, 6), ipv6_packet(six, UDP)]
    yield from under(15, COUNTING_KEY, [2, 0, 3, 1], both)


def published_cases():
    """Under all flags the published hashes; under the plain flags alone a TCP packet has the one without ports."""
    table = seeded_below("published", 128, 64)
    for flags in (15, 5, 10):
        yield from under(flags, RSS_KEY, table, (packet for packet, _ in published_packets()))


def length_cases():
    """Both families at every length, TCP or not by the octet that counts, with TCP's number in IPv4's place for IPv6. In
    IPv6's place it would make an IPv4 packet a fragment; fragment_cases have that."""
    for first in (0x45, 0x60):
        for protocol in (6, UDP):
            places = {0: first, 9: protocol, **WHOLE} if first == 0x45 else {0: first, 6: protocol, 9: 23 - protocol}
            key = seeded(f"lengths {first} {protocol}", 40)
            some = [shaped(f"length {first} {protocol} {length}", length, places) for length in LENGTHS]
            yield from under(15, key, seeded_below("lengths", 32, 64), some)
    long = [shaped("long", 1500, {0: 0x45, 9: 6, **WHOLE}), shaped("long too", 1500, {0: 0x6F, 6: 6})]
    yield from under(15, seeded("long key", 40), seeded_below("long", 64, 64), long)


def first_octet_cases():
    """Other first octets than 45 and 6x, in packets that are else TCP for IPv4, or long enough and TCP for IPv6."""
    firsts = [0x00, 0x04, 0x05, 0x06, 0x40, 0x44, 0x45, 0x46, 0x4F, 0x54, 0x55, 0x56, 0x5F]
    firsts += list(range(0x60, 0x70)) + [0x70, 0x76, 0xC5, 0xE0, 0xFF]
    yield settings_case(15, seeded("firsts", 40), seeded_below("firsts", 16, 64))
    for first in firsts:
        for length, places in ((24, WHOLE), (44, WHOLE), (44, {6: 6})):
            yield PACKET, shaped(f"first {first} {length}", length, {0: first, 9: 6, **places})


def protocol_cases():
    yield settings_case(15, seeded("protocols", 40), seeded_below("protocols", 16, 64))
    for protocol in (0, 1, 4, 5, 6, 7, 14, 17, 22, 58, 134, 255):
        for length in (24, 44):
            yield PACKET, shaped(f"protocol {protocol} {length}", length, {0: 0x45, 9: protocol, **WHOLE})
        yield PACKET, shaped(f"protocol {protocol}", 44, {0: 0x63, 6: protocol, 9: 6})


def datagram():
    """The three fragments of a TCP datagram, as a sender cuts it: 40 octets behind each header; offsets count eights."""
    addresses = seeded("datagram addresses", 8)
    content = seeded("source port", 2) + b"\x01\xbb" + tcp_rest() + seeded("content", 80)
    for start in range(0, len(content), 40):
        part = content[start : start + 40]
        more = 0x2000 if start + 40 < len(content) else 0
        yield ipv4_header(addresses, len(part), more + start // 8, 6) + part


def strangers(name, addresses, fields):
    """Packets with these addresses and fragment fields that have nothing else in common."""
    for n, field in enumerate(fields):
        length = 20 + n * 7 % 45
        packet = bytearray(shaped(f"{name} {n}", length, {0: 0x45, 6: field >> 8, 7: field & 0xFF}))
        packet[9] = [6, UDP, 1][n % 3]
        packet[12:20] = addresses
        yield bytes(packet)


# Each bit of the field alone, none, all, and those that tell whole packets from fragments only together.
FIELDS = [1 << bit for bit in range(16)]
FIELDS += [0, 0xFFFF, 0x3FFF, 0x1FFF, 0xC000, 0x6000, 0xA000, 0xE000, 0x2001, 0x4001, 0x8100, 0xD000, 0xC0FF, 0x5FFF]
FRAGMENTS = [field for field in FIELDS if field not in (0, 0x4000, 0x8000, 0xC000)]


def fragment_cases():
    """IPv4 packets with each field, TCP or not, IPv6 packets with the same octets, and fragments with the same addresses."""
    table = seeded_below("fragments", 64, 64)
    yield settings_case(15, seeded("fragments", 40), table)
    for field in FIELDS:
        places = {6: field >> 8, 7: field & 0xFF}
        for length in (23, 24, 60):
            yield PACKET, shaped(f"field {field} {length}", length, {0: 0x45, 9: 6, **places})
        yield PACKET, shaped(f"field {field}", 44, {0: 0x45, 9: UDP, **places})
        yield PACKET, shaped(f"field {field} 6", 44, {0: 0x60, **places})
        yield PACKET, shaped(f"field {field} TCP", 44, {0: 0x60, **places, 6: 6})
    for flags in (15, 1, 2, 3, 14):
        yield from under(flags, seeded("datagram", 40), table, datagram())
        addresses = seeded(f"strangers {flags}", 8)
        yield from under(flags, seeded("strangers", 40), table, strangers(f"strange {flags}", addresses, FRAGMENTS))


def flag_cases():
    for flags in range(16):
        key, table = seeded(f"flags {flags}", 40), seeded_below(f"flags {flags}", 8, 64)
        yield from under(flags, key, table, one_of_each(f"flags {flags}"))


def table_cases():
    """Tables of each listed length; the seeded hashes take entries from all over them."""
    for count in LISTED:
        for n in range(2):
            table = seeded_below(f"table {count} {n}", count, 64)
            some = list(one_of_each(f"table {count} {n}"))[:4] + list(one_of_each(f"more {count} {n}"))[:2]
            yield from under(15, seeded(f"table {count} {n}", 40), table, some)
    # under this key an input bit from 32 on gives a hash of one bit, 2^(position - 32), and an earlier one gives 0
    some = [bytes([0x45]) + bytes(11) + single_bit(8, at) for at in list(range(30, 42)) + [47, 48, 56, 62, 63]]
    yield from under(1, single_bit(40, 63), seeded_below("places", 128, 64), some)


def key_cases():
    keys = [COUNTING_KEY, ZERO_KEY, b"\xff" * 40] + [seeded(f"key {n}", 40) for n in range(6)]
    keys += [single_bit(40, at) for at in (0, 1, 31, 32, 63, 64, 94, 95, 127, 255, 286, 287, 288, 318, 319)]
    table = seeded_below("keys", 64, 64)
    for n, key in enumerate(keys):
        yield from under(15, key, table, list(one_of_each(f"packet {n}"))[:4])


def bit_cases():
    """Packets of zeros but for what makes their kind and for one bit, in the hash input and beside it."""
    table = seeded_below("bits", 128, 64)
    yield settings_case(15, seeded("bits", 40), table)
    for at in list(range(80, 208, 9)) + [95, 96, 159, 160, 175, 176, 191, 192]:
        yield PACKET, single_packet(26, {0: 0x45, 9: 6}, at)
    for at in list(range(56, 368, 17)) + [63, 64, 191, 192, 319, 320, 335, 336, 351, 352]:
        yield PACKET, single_packet(46, {0: 0x60, 6: 6}, at)


def single_packet(length, places, position):
    packet = bytearray(single_bit(length, position))
    for place, octet in places.items():
        packet[place] = octet
    return bytes(packet)


def random_cases():
    """Packets of any length, the octets that are looked at often those that matter, under settings of all sorts."""
    for n in range(10):
        flags, count = seeded_below(f"settings {n}", 2, 16)
        yield settings_case(flags, seeded(f"random {n}", 40), seeded_below(f"random {n}", LISTED[count % 8], 64))
        for m in range(14):
            first, protocol, length = seeded_below(f"packet {n} {m}", 3, 61)
            places = {6: [6, 6, 0, 17][protocol % 4], 9: [6, 1, 6, 255][protocol % 4]}
            if first % 5:
                places[0] = [0x45, 0x45, 0x60, 0x6A][first % 4]
                if first % 4 < 2:
                    places.update({6: [0, 0x40, 0x80, 0x20][length % 4], 7: [0, 0, 0, 1][length // 4 % 4]})
            yield PACKET, shaped(f"octets {n} {m}", length, places)


def all_cases():
    for part in (
        worked_cases,
        published_cases,
        length_cases,
        first_octet_cases,
        protocol_cases,
        fragment_cases,
        flag_cases,
        table_cases,
        key_cases,
        bit_cases,
        random_cases,
    ):
        yield from part()


def expected(cases):
    settings = None
    for kind, body in cases:
        if kind == SETTINGS:
            settings = settings_of(body)
        else:
            yield f"{packets.look_words(body)} {packets.steer_words(settings, body)}\n"


def files():
    """Each stored file, by its path below crates/, with the octets that it must have."""
    agree_with_papers()
    cases = list(all_cases())
    return program_files("packet_vectors", cases, expected(cases))
