"""Files that are missing, empty or as long as may be, and the order of the refusals."""

import captures
import report
from messages import GET_FLAGS, message

GET = message(GET_FLAGS, b"")


def full_capture(order, link):
    """A capture of 65,536 octets: a record of 8, and behind it as many of none as there is room for."""
    start = captures.write(order, link, [bytes(8)])
    return start.ljust(report.MOST, b"\0")


def long_settings(length):
    """Four queues and get flags again and again, up to so many octets, which may end within a message."""
    return (b"\x04" + GET * (length // len(GET) + 1))[:length]


# Headers that are good or bad by one number alone.
HEADERS = [
    ("snap length 0", {"snap": 0}),
    ("snap length 59", {"snap": 59}),
    ("time zone and accuracy", {"zone": 2**32 - 1, "accuracy": 6}),
    ("nanoseconds", {"magic": 0xA1B23C4D}),
    ("version 2.3", {"version": (2, 3)}),
    ("version 3.4", {"version": (3, 4)}),
    ("link 65,537", {"link": 2**16 + 1}),
    ("link 16,777,317", {"link": 2**24 + 101}),
]


def header_and_record(original=None, link=captures.ETHERNET, **fields):
    """A capture of one frame of 60 octets, with an IPv4 packet in it."""
    frame = bytes(12) + b"\x08\x00\x45" + bytes(range(45))
    return captures.write_header("big", link, **fields) + captures.write_record("big", frame, original=original)


def inputs(settings, capture):
    """Each input with a name, out of good settings and a good capture. Nothing stands for a missing file."""
    yield "both missing", None, None
    yield "no settings", None, capture
    yield "no capture", settings, None
    yield "both empty", b"", b""
    yield "empty settings", b"", capture
    yield "empty capture", settings, b""
    yield "no settings and a long capture", None, bytes(report.MOST + 1)
    for order, link in (("little", captures.ETHERNET), ("big", captures.RAW_IP)):
        full = full_capture(order, link)
        yield f"65,535 octets of capture, {order}", settings, full[:-1]
        yield f"65,536 octets of capture, {order}", settings, full
        yield f"65,537 octets of capture, {order}", settings, full + b"\0"
    for length in (65529, 65535, 65536, 65537, 65600):
        yield f"{length} octets of settings", long_settings(length), capture
    yield "both 65,537 octets", long_settings(65537), bytes(65537)
    yield "long settings, bad header", long_settings(65537), b""
    yield "bad count, long capture", b"\x00", bytes(65537)
    for count in (0, 1, 63, 64, 65, 255):
        yield f"{count} queues", bytes([count]), capture
    bad = message(0, b"")
    for name, some in (("count", b"\x41" + GET), ("count and message", b"\x00" + bad), ("message", b"\x04" + bad)):
        yield f"bad {name}", some, capture
        yield f"bad {name} and header", some, capture[1:]
        yield f"bad {name} and record", some, capture[:-1]
    yield "bad header and record", settings, b"\0" + capture[1:-1]
    for name, how in HEADERS:
        yield name, settings, header_and_record(**how)
    for length in (0, 1, 59, 61, 2049, 2**32 - 1):
        yield f"{length} octets before it was cut off", settings, header_and_record(original=length)
