"""Captures, rule by rule, for people who do not read proofs: the classic libpcap file, its records, and the IP packet
that a record holds.

The reading is read off document 02's words on the capture report. It is written to be read and to be slow: it shares no
code and no method with the proved reader, and its answers are what that one's are compared with. The writing makes the
captures that both read, bad ones too, so each field can be given.
"""

MAGIC = 0xA1B2C3D4  # of captures with times in microseconds
VERSION = (2, 4)
ETHERNET, RAW_IP = 1, 101  # the link types
IPV4, IPV6 = 0x0800, 0x86DD  # what an Ethernet frame says of its content

HEADER_LENGTH = 24
RECORD_HEADER_LENGTH = 16
ETHERNET_LENGTH = 14
MAX_CAPTURED = 2048

# The refusals, by document 02's numbers.
BAD_HEADER = 14
BAD_RECORD = 15


# Reading.


def number(data, order):
    return int.from_bytes(data, order)


def byte_order(header):
    """The order in which the capture's numbers are written: the one in which its first four octets are the magic."""
    for order in ("little", "big"):
        if number(header[0:4], order) == MAGIC:
            return order
    return None


def version_numbers(header, order):
    return number(header[4:6], order), number(header[6:8], order)


def link_type(header, order):
    """All four octets count."""
    return number(header[20:24], order)


def read_header(capture):
    """Byte order and link type, or nothing for a bad header. Time zone, accuracy and snap length are not looked at."""
    header = capture[:HEADER_LENGTH]
    order = byte_order(header)
    if len(header) < HEADER_LENGTH or order is None:
        return None
    link = link_type(header, order)
    if version_numbers(header, order) != VERSION or link not in (ETHERNET, RAW_IP):
        return None
    return order, link


def captured_length(header, order):
    """Behind the seconds and the microseconds; the original length behind it is not looked at."""
    return number(header[8:12], order)


def read_records(capture, order):
    """The captured octets of each record, or nothing where one is cut short or too long."""
    records = []
    at = HEADER_LENGTH
    while at < len(capture):
        header = capture[at : at + RECORD_HEADER_LENGTH]
        if len(header) < RECORD_HEADER_LENGTH:
            return None
        length = captured_length(header, order)
        at += RECORD_HEADER_LENGTH
        record = capture[at : at + length]
        if len(record) < length or length > MAX_CAPTURED:
            return None
        records.append(record)
        at += length
    return records


def read(capture):
    """The link type and the captured octets of each record; or the refusal."""
    header = read_header(capture)
    if header is None:
        return ("refused", BAD_HEADER)
    order, link = header
    records = read_records(capture, order)
    if records is None:
        return ("refused", BAD_RECORD)
    return ("records", (link, records))


def ip_packet(link, record):
    """The IP packet that a record holds, or nothing. An Ethernet frame says at octets 12 and 13 what it carries."""
    if link == RAW_IP:
        return record
    if len(record) < ETHERNET_LENGTH or number(record[12:14], "big") not in (IPV4, IPV6):
        return None
    return record[ETHERNET_LENGTH:]


# Writing.


def write_header(order, link, magic=MAGIC, version=VERSION, zone=0, accuracy=0, snap=65535):
    """A capture without records."""
    fields = [(magic, 4), (version[0], 2), (version[1], 2), (zone, 4), (accuracy, 4), (snap, 4), (link, 4)]
    return b"".join(value.to_bytes(width, order) for value, width in fields)


def write_record(order, data, when=0, original=None, captured=None):
    """A record of these octets, at so many microseconds. The two lengths are theirs, unless others are given."""
    lengths = [len(data) if captured is None else captured, len(data) if original is None else original]
    fields = [when // 10**6, when % 10**6, *lengths]
    return b"".join(value.to_bytes(4, order) for value in fields) + data


def write(order, link, contents):
    """A capture of these octets, each a record."""
    return write_header(order, link) + b"".join(write_record(order, data) for data in contents)
