"""The hash and the two-way question, rule by rule, for people who do not read proofs.

Everything here is read off document 01 ("The hash and the queue", "What each call answers"). It is written
to be read and to be slow: it shares no code and no method with the proved backend, and its answers are what
the backend's are compared with.
"""

KEY_LENGTH = 40
MAX_INPUT = 36

# The refusals, by document 01's numbers.
INPUT_TOO_LONG = 7
KEY_LENGTH_WRONG = 8
TYPE_UNKNOWN = 9

# The hash types in order, each with the octets of an address and of a port in its input.
TYPES = [("ipv4", 4, 0), ("ipv4_tcp", 4, 2), ("ipv6", 16, 0), ("ipv6_tcp", 16, 2)]


def bits(octets):
    """The bits of some octets in order: bit 0 is the top bit of octet 0."""
    return "".join(f"{octet:08b}" for octet in octets)


def window(key, i):
    """The window at i: key bits i to i + 31, as a number."""
    return int(bits(key)[i : i + 32], 2)


def published_hash(key, data):
    """The XOR of the windows at every set input bit; 0 for an empty input."""
    total = 0
    for i, bit in enumerate(bits(data)):
        if bit == "1":
            total ^= window(key, i)
    return total


def hash_call(key, data):
    """What the hash call answers: ("refused", number) or ("value", hash)."""
    if len(key) != KEY_LENGTH:
        return ("refused", KEY_LENGTH_WRONG)
    if len(data) > MAX_INPUT:
        return ("refused", INPUT_TOO_LONG)
    return ("value", published_hash(key, data))


def input_length(hash_type):
    """Two addresses and two ports: 8, 12, 32 or 36 octets."""
    _, address, port = TYPES[hash_type]
    return 2 * address + 2 * port


def reverse(hash_type, data):
    """The input with its two addresses swapped and, for the TCP types, its two ports."""
    _, address, port = TYPES[hash_type]
    source, data = data[:address], data[address:]
    destination, data = data[:address], data[address:]
    source_port, destination_port = data[:port], data[port:]
    return destination + source + destination_port + source_port


def single_bit(length, position):
    """So many octets, with one bit set."""
    octets = bytearray(length)
    octets[position // 8] = 0b10000000 >> (position % 8)
    return bytes(octets)


def two_way_call(key, hash_type):
    """What the two-way call answers: ("refused", number), ("yes", None), or ("no", lowest bit position)."""
    if len(key) != KEY_LENGTH:
        return ("refused", KEY_LENGTH_WRONG)
    if hash_type > 3:
        return ("refused", TYPE_UNKNOWN)
    length = input_length(hash_type)
    for position in range(8 * length):
        data = single_bit(length, position)
        if published_hash(key, data) != published_hash(key, reverse(hash_type, data)):
            return ("no", position)
    return ("yes", None)


# What the programs print.


def hash_line(answer):
    """Eight lower-case hexadecimal digits, or the refusal."""
    kind, number = answer
    return f"refused {number}\n" if kind == "refused" else f"{number:08x}\n"


def two_way_line(answer):
    """Yes, no and the bit position, or the refusal."""
    kind, number = answer
    return "yes\n" if kind == "yes" else f"{kind} {number}\n"


def hash_program(stdin):
    """What the hash program prints: 40 key octets are read, and then the input."""
    return hash_line(hash_call(stdin[:KEY_LENGTH], stdin[KEY_LENGTH:]))


def two_way_program(stdin):
    """What the two-way program prints: a line for each hash type, or one refusal."""
    if len(stdin) != KEY_LENGTH:
        return f"refused {KEY_LENGTH_WRONG}\n"
    return "".join(f"{name} {two_way_line(two_way_call(stdin, t))}" for t, (name, _, _) in enumerate(TYPES))
