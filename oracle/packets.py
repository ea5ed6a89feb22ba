"""Packets, rule by rule, for people who do not read proofs: what kind a packet is, its hash type and hash, its queue.

Everything here is read off document 01 ("The hash and the queue"), with the rule on fragments added later. It is written
to be read and to be slow: it shares no code and no method with the proved backend, and its answers are what the
backend's are compared with. The settings are those of messages.py.
"""

import toeplitz

TCP = 6

# For each kind of packet the hash types that it may use, the one that it would rather use first.
USES = {"none": [], "ipv4": [0], "ipv4_tcp": [1, 0], "ipv6": [2], "ipv6_tcp": [3, 2]}


def is_fragment(packet):
    """RFC 791 draws octets 6 and 7 of an IPv4 packet as one row: a reserved bit, don't fragment, more fragments, and 13
    bits of fragment offset. A fragment has more of them behind it, or an offset."""
    row = "".join(f"{octet:08b}" for octet in packet[6:8])
    _reserved, _dont_fragment, more_fragments, offset = row[0], row[1], row[2], row[3:]
    return more_fragments == "1" or "1" in offset


def look(packet):
    """The packet's kind, and the offsets at which its addresses begin, at which they end, which is where the ports
    begin, and at which the hash input of its own kind ends."""
    if len(packet) >= 20 and packet[0] == 0x45:
        if len(packet) >= 24 and packet[9] == TCP and not is_fragment(packet):
            return "ipv4_tcp", 12, 20, 24
        return "ipv4", 12, 20, 20
    if len(packet) >= 40 and packet[0] >> 4 == 6:
        if len(packet) >= 44 and packet[6] == TCP:
            return "ipv6_tcp", 8, 40, 44
        return "ipv6", 8, 40, 40
    return "none", 0, 0, 0


def allowed(flags, hash_type):
    """The flag values of types 0, 1, 2 and 3 are 1, 2, 4 and 8."""
    return flags // 2**hash_type % 2 == 1


def hash_input(hash_type, packet):
    """Source and destination, and for the TCP types the two ports: they stand in the packet in this order."""
    start = 12 if hash_type < 2 else 8
    return packet[start : start + toeplitz.input_length(hash_type)]


def queue(table, value):
    """The mapping entry at hash modulo entry count."""
    return table[value % len(table)]


def steer(settings, packet):
    """The hash type used, the hash and the queue; or no type, no hash and queue 0."""
    kind, _, _, _ = look(packet)
    for hash_type in USES[kind]:
        if allowed(settings["flags"], hash_type):
            value = toeplitz.published_hash(settings["key"], hash_input(hash_type, packet))
            return hash_type, value, queue(settings["table"], value)
    return None, None, 0


# What the programs print.


def look_words(packet):
    kind, addresses, ports, end = look(packet)
    return f"{kind} {addresses} {ports} {end}"


def steer_words(settings, packet):
    hash_type, value, chosen = steer(settings, packet)
    if hash_type is None:
        return f"no type queue {chosen}"
    return f"type {hash_type} hash {value:08x} queue {chosen}"
