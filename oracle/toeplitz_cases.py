"""The cases of the hash and the two-way question, with what is known of them from elsewhere.

Each case is (kind, first part, second part). The program `hash_vectors` runs them from its files of cases, in the
body of each the length of the first part, an octet, and then the parts.
"""

import ipaddress

import toeplitz
from cases import program_files
from seeds import seeded

HASH, TWO_WAY, HASH_PROGRAM, TWO_WAY_PROGRAM = range(4)

COUNTING_KEY = bytes(range(40))  # document 01's K
ZERO_KEY = bytes(40)

# Microsoft's verification suite for receive-side scaling: its key, and for each pair of ends, destination first,
# the hash of the addresses and of the addresses with the ports.
RSS_KEY = bytes.fromhex(
    "6d5a56da255b0ec24167253d43a38fb0d0ca2bcbae7b30b477cb2da38030f20c6a42b73bbeac01fa"
)
RSS_VECTORS = [
    ("161.142.100.80", 1766, "66.9.149.187", 2794, 0x323E8FC2, 0x51CCC178),
    ("65.69.140.83", 4739, "199.92.111.2", 14230, 0xD718262A, 0xC626B0EA),
    ("12.22.207.184", 38024, "24.19.198.95", 12898, 0xD2D0A5DE, 0x5C2B394A),
    ("209.142.163.6", 2217, "38.27.205.30", 48228, 0x82989176, 0xAFC7327F),
    ("202.188.127.2", 1303, "153.39.163.191", 44251, 0x5D1809C5, 0x10E828A2),
    ("3ffe:2501:200:3::1", 1766, "3ffe:2501:200:1fff::7", 2794, 0x2CC18CD5, 0x40207D3D),
    ("ff02::1", 4739, "3ffe:501:8::260:97ff:fe40:efab", 14230, 0x0F0C461C, 0xDDE51BBF),
    ("fe80::200:f8ff:fe21:67cf", 38024, "3ffe:1900:4545:3:200:f8ff:fe21:67cf", 44251, 0x4B61E985, 0x02D1FEEF),
]

# Document 01's worked lines: input under K and hash, and key, type and two-way answer.
WORKED_HASHES = [
    (b"", 0),
    (b"\x80", 0x00010203),
    (b"\xc0", 0x00030605),
    (b"\x00\x80", 0x01020304),
    (b"\x80\x80", 0x01030107),
    (bytes(35) + b"\x01", 0x92129313),
]


def octet_key(place, octet):
    """A key of zeros but for one octet."""
    return bytes(place) + bytes([octet]) + bytes(39 - place)


SPARSE_KEY = octet_key(15, 0x02)

WORKED_TWO_WAYS = [
    (SPARSE_KEY, 0, ("yes", None)),
    (SPARSE_KEY, 1, ("no", 79)),
    (SPARSE_KEY, 2, ("no", 95)),
    (COUNTING_KEY, 0, ("no", 0)),
] + [(ZERO_KEY, t, ("yes", None)) for t in range(4)]


def ends(vector):
    """The two inputs of a row of the suite, with their hashes."""
    destination, destination_port, source, source_port, plain, tcp = vector
    addresses = ipaddress.ip_address(source).packed + ipaddress.ip_address(destination).packed
    ports = source_port.to_bytes(2, "big") + destination_port.to_bytes(2, "big")
    return [(addresses, plain), (addresses + ports, tcp)]


def agree_with_papers():
    """This program itself gives the published and the worked values."""
    for vector in RSS_VECTORS:
        for data, value in ends(vector):
            assert toeplitz.hash_call(RSS_KEY, data) == ("value", value), vector
    for data, value in WORKED_HASHES:
        assert toeplitz.hash_call(COUNTING_KEY, data) == ("value", value), data
    for key, hash_type, answer in WORKED_TWO_WAYS:
        assert toeplitz.two_way_call(key, hash_type) == answer, (key, hash_type)


def hash_cases():
    for data, _ in WORKED_HASHES:
        yield COUNTING_KEY, data
    yield COUNTING_KEY, bytes(37)
    for vector in RSS_VECTORS:
        for data, _ in ends(vector):
            yield RSS_KEY, data
    for length in range(38):
        for n in range(8):
            yield seeded(f"key {length} {n}", 40), seeded(f"input {length} {n}", length)
        yield seeded(f"key {length}", 40), b"\xff" * length
    for position in range(0, 288, 7):
        yield seeded("one bit", 40), toeplitz.single_bit(36, position)
    for key_length in (0, 1, 39, 41, 80, 255):
        for length in (0, 36, 37):
            yield seeded("short or long", key_length), seeded("any", length)


def two_way_keys():
    yield from (ZERO_KEY, COUNTING_KEY, RSS_KEY, SPARSE_KEY, b"\xff" * 40)
    for period in (1, 2, 4, 8, 16, 20):
        for n in range(3):
            yield (seeded(f"period {period} {n}", period) * 40)[:40]
            # the same but for one bit, at another place each time
            spoilt = bytearray((seeded(f"period {period} {n}", period) * 40)[:40])
            spoilt[(period * 7 + n * 13) % 40] ^= 1 << n
            yield bytes(spoilt)
    for position in range(0, 320, 3):
        yield toeplitz.single_bit(40, position)
    for n in range(12):
        yield seeded(f"two-way key {n}", 40)


def two_way_cases():
    for key in two_way_keys():
        for hash_type in range(4):
            yield key, hash_type
    for hash_type in (4, 5, 128, 255):
        yield COUNTING_KEY, hash_type
    for key_length in (0, 39, 41):
        for hash_type in (0, 3, 4):
            yield seeded("short or long", key_length), hash_type


def program_cases():
    for length in (0, 1, 39, 40, 41, 48, 52, 72, 75, 76, 77):
        yield HASH_PROGRAM, seeded("standard input", length)
    for key in (ZERO_KEY, COUNTING_KEY, SPARSE_KEY, RSS_KEY, seeded("key", 39), seeded("key", 41), b""):
        yield TWO_WAY_PROGRAM, key


def all_cases():
    for key, data in hash_cases():
        yield HASH, key, data
    for key, hash_type in two_way_cases():
        yield TWO_WAY, key, bytes([hash_type])
    for kind, stdin in program_cases():
        yield kind, b"", stdin


def expected(kind, first, second):
    if kind == HASH:
        return toeplitz.hash_line(toeplitz.hash_call(first, second))
    if kind == TWO_WAY:
        return toeplitz.two_way_line(toeplitz.two_way_call(first, second[0]))
    if kind == HASH_PROGRAM:
        return toeplitz.hash_program(second)
    return toeplitz.two_way_program(second)


def files():
    """Each stored file, by its path below crates/, with the octets that it must have."""
    agree_with_papers()
    cases = list(all_cases())
    bodies = [(kind, bytes([len(first)]) + first + second) for kind, first, second in cases]
    hash_stdin = COUNTING_KEY + b"\x80\x80"
    return {
        **program_files("hash_vectors", bodies, (expected(*case) for case in cases)),
        "hash/stdin": hash_stdin,
        "hash/stdout": toeplitz.hash_program(hash_stdin).encode(),
        "two_way/stdin": SPARSE_KEY,
        "two_way/stdout": toeplitz.two_way_program(SPARSE_KEY).encode(),
    }
