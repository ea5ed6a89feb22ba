"""Wrong rules, each of which the compared inputs must tell from the program: else the comparison would not notice a
program that had it."""

from unittest import mock

import captures
import messages
import packets
import report

# The right rules, for wrong ones that differ from them in one thing.
ANSWER, COUNT, JUDGE, LOOK, REQUESTS = report.answer, report.count, messages.judge, packets.look, report.requests
BYTE_ORDER, READ_RECORDS, IP_PACKET = captures.byte_order, captures.read_records, captures.ip_packet
STEER, TEXT = packets.steer, report.text


def nanoseconds_too(header):
    for order in ("little", "big"):
        if captures.number(header[0:4], order) == 0xA1B23C4D:
            return order
    return BYTE_ORDER(header)


def behind_a_tag(link, record):
    """A frame with a tag holds what is behind the tag."""
    if link == captures.ETHERNET and record[12:14] == b"\x81\x00":
        record = record[:12] + record[16:]
    return IP_PACKET(link, record)


def frame_type_turned(link, record):
    if link == captures.ETHERNET:
        record = record[:12] + record[12:14][::-1] + record[14:]
    return IP_PACKET(link, record)


def rest_ignored(capture, order):
    """Fewer octets than a record's header behind the last record are ignored."""
    at = captures.HEADER_LENGTH
    while at + captures.RECORD_HEADER_LENGTH <= len(capture):
        length = captures.captured_length(capture[at : at + captures.RECORD_HEADER_LENGTH], order)
        at += captures.RECORD_HEADER_LENGTH + length
    return READ_RECORDS(capture[:at], order)


def record_headers(capture, order):
    at = captures.HEADER_LENGTH
    while at < len(capture):
        header = capture[at : at + captures.RECORD_HEADER_LENGTH]
        yield header
        at += captures.RECORD_HEADER_LENGTH + captures.captured_length(header, order)


def within_snap_length(capture, order):
    records = READ_RECORDS(capture, order)
    snap = captures.number(capture[16:20], order)
    return None if records is None or any(len(record) > snap for record in records) else records


def within_original_length(capture, order):
    records = READ_RECORDS(capture, order)
    for header in record_headers(capture, order) if records is not None else ():
        if captures.captured_length(header, order) > captures.number(header[12:16], order):
            return None
    return records


def unhashed_apart(settings, link, records):
    """Packets without a hash are on no queue."""
    hashed = [r for r in records if report.steered(settings, captures.ip_packet(link, r))[0]]
    return COUNT(settings, link, hashed)[0], len(records) - len(hashed)


def only_packets_unhashed(settings, link, records):
    """Records without an IP packet are not counted as unhashed."""
    queues, unhashed = COUNT(settings, link, records)
    return queues, unhashed - sum(captures.ip_packet(link, record) is None for record in records)


def packet_octets(settings, link, records):
    """The octets of the packets, without the Ethernet header."""
    queues = [(0, 0)] * settings["queues"]
    for record in records:
        packet = captures.ip_packet(link, record)
        queue = report.steered(settings, packet)[1]
        held, octets = queues[queue]
        queues[queue] = held + 1, octets + len(packet or b"")
    return queues, COUNT(settings, link, records)[1]


def header_before_messages(settings, capture):
    """14 before 22."""
    word, content = ANSWER(settings, capture)
    if content == report.BAD_MESSAGE and captures.read_header(capture) is None:
        return word, captures.BAD_HEADER
    return word, content


def messages_before_count(settings, capture):
    """22 before 6."""
    word, content = ANSWER(settings, capture)
    if content == report.BAD_QUEUE_COUNT and report.read_settings(b"\x40" + settings[1:])[0] == "refused":
        return word, report.BAD_MESSAGE
    return word, content


def count_before_lengths(settings, capture):
    """6 before 23."""
    word, content = ANSWER(settings, capture)
    if content == report.FILE_TOO_LONG and not 1 <= (settings or b"\0")[0] <= report.MAX_QUEUES:
        return word, report.BAD_QUEUE_COUNT
    return word, content


def options_too(packet):
    """A packet with options is IPv4 too."""
    return LOOK(b"\x45" + packet[1:] if packet and 0x46 <= packet[0] <= 0x4F else packet)


def modulo_queues(settings, packet):
    """The queue is the hash modulo queue count."""
    hash_type, value, queue = STEER(settings, packet)
    return hash_type, value, queue if value is None else value % settings["queues"]


def busy_queues_alone(settings, capture):
    return "".join(f"{line}\n" for line in TEXT(settings, capture).splitlines() if not line.endswith(" 0 0"))


# Each wrong rule in words, with what it replaces.
RULES = [
    ("the original length is taken", captures, "captured_length", lambda h, order: captures.number(h[12:16], order)),
    ("record lengths are little-endian", captures, "captured_length", lambda h, order: captures.number(h[8:12], "little")),
    ("numbers are little-endian", captures, "number", lambda data, order: int.from_bytes(data, "little")),
    ("nanoseconds are taken", captures, "byte_order", nanoseconds_too),
    ("the version is not looked at", captures, "version_numbers", lambda header, order: captures.VERSION),
    ("half the link type counts", captures, "link_type", lambda h, order: captures.number(h[20:24], order) % 2**16),
    ("every link is Ethernet", captures, "link_type", lambda header, order: captures.ETHERNET),
    ("the Ethernet header is in the packet", captures, "ip_packet", lambda link, record: record),
    ("every record has an Ethernet header", captures, "ip_packet", lambda link, record: IP_PACKET(1, record)),
    ("a tag is skipped", captures, "ip_packet", behind_a_tag),
    ("the frame type is little-endian", captures, "ip_packet", frame_type_turned),
    ("frames hold no IPv6", captures, "IPV6", captures.IPV4),
    ("frames hold no IPv4", captures, "IPV4", captures.IPV6),
    ("2,048 octets are refused", captures, "MAX_CAPTURED", 2047),
    ("2,049 octets are taken", captures, "MAX_CAPTURED", 2049),
    ("a cut record header is ignored", captures, "read_records", rest_ignored),
    ("the snap length is looked at", captures, "read_records", within_snap_length),
    ("more captured than there was is refused", captures, "read_records", within_original_length),
    ("unhashed packets are on no queue", report, "count", unhashed_apart),
    ("frames without a packet are not unhashed", report, "count", only_packets_unhashed),
    ("octets of the packet are counted", report, "count", packet_octets),
    ("14 before 22", report, "answer", header_before_messages),
    ("22 before 6", report, "answer", messages_before_count),
    ("6 before 23", report, "answer", count_before_lengths),
    ("65,536 octets are refused", report, "MOST", 65535),
    ("65,537 octets are taken", report, "MOST", 65537),
    ("64 queues are refused", report, "MAX_QUEUES", 63),
    ("65 queues are taken", report, "MAX_QUEUES", 65),
    ("a cut message is ignored", report, "requests", lambda data: filter(None, REQUESTS(data))),
    ("a refused message is ignored", messages, "judge", lambda *request: (0, JUDGE(*request)[1])),
    ("get flags is refused", messages, "judge", lambda s, kind, *rest: (1, s) if kind == 2 else JUDGE(s, kind, *rest)),
    ("flags make no difference", packets, "allowed", lambda flags, hash_type: True),
    ("fragments are TCP", packets, "is_fragment", lambda packet: False),
    ("packets with options are IPv4", packets, "look", options_too),
    ("the mapping is not used", packets, "steer", modulo_queues),
    ("queues without packets are left out", report, "text", busy_queues_alone),
]


def noticed(rule, inputs):
    """On how many of the inputs, each settings, capture and what the program printed of them, a wrong rule shows."""
    _words, module, name, replacement = rule
    count = 0
    with mock.patch.object(module, name, replacement):
        for settings, capture, printed in inputs:
            try:
                count += report.text(settings, capture) != printed
            except (IndexError, KeyError):  # a rule may be so wrong that it has no answer
                count += 1
    return count
