"""The capture report, rule by rule, for people who do not read proofs: how many packets of a capture each queue gets
under the settings that a guest's requests leave.

Everything here is read off document 02's words on the capture report. It is written to be read and to be slow: it shares
no code and no method with the proved program, and its answers are what that one's are compared with.

    python3 oracle/report.py SETTINGS CAPTURE    print what the program must print of these two files
"""

import pathlib
import sys

import captures
import messages
import packets

MOST = 65536
MAX_QUEUES = 64

# The refusals, by the documents' numbers; captures.py has the capture's two.
BAD_QUEUE_COUNT = 6
BAD_MESSAGE = 22
FILE_TOO_LONG = 23


def requests(data):
    """The messages one after the other, each its type, size and payload; nothing in the place of one cut short."""
    at = 0
    while at < len(data):
        header = data[at : at + 8]
        kind, size = messages.number(header[:4]), messages.number(header[4:])
        at += 8
        payload = data[at : at + size]
        if len(header) < 8 or len(payload) < size:
            yield None
            return
        yield kind, size, payload
        at += size


def read_settings(data):
    """The settings after the last message, each carried out as the host does; or the refusal."""
    if not data or not 1 <= data[0] <= MAX_QUEUES:
        return ("refused", BAD_QUEUE_COUNT)
    settings = messages.settings_at_setup(data[0])
    for request in requests(data[1:]):
        if request is None:
            return ("refused", BAD_MESSAGE)
        status, settings = messages.judge(settings, *request)
        if status != 0:
            return ("refused", BAD_MESSAGE)
    return ("settings", settings)


def steered(settings, packet):
    """Whether a record's packet has a hash type, and its queue. A record without a packet has no type either."""
    if packet is None:
        return False, 0
    hash_type, _, queue = packets.steer(settings, packet)
    return hash_type is not None, queue


def count(settings, link, records):
    """For each queue the packets and the captured octets; and how many packets have no hash type."""
    queues = [(0, 0)] * settings["queues"]
    unhashed = 0
    for record in records:
        hashed, queue = steered(settings, captures.ip_packet(link, record))
        held, octets = queues[queue]
        queues[queue] = held + 1, octets + len(record)
        unhashed += 0 if hashed else 1
    return queues, unhashed


def answer(settings_data, capture_data):
    """The counts and the records that they are of, or the first refusal."""
    if len(settings_data) > MOST or len(capture_data) > MOST:
        return ("refused", FILE_TOO_LONG)
    word, settings = read_settings(settings_data)
    if word == "refused":
        return word, settings
    word, content = captures.read(capture_data)
    if word == "refused":
        return word, content
    link, records = content
    return ("counts", (*count(settings, link, records), records))


def text(settings_data, capture_data):
    """What the program prints."""
    word, content = answer(settings_data, capture_data)
    if word == "refused":
        return f"refused {content}\n"
    queues, unhashed, records = content
    lines = [f"queue {queue} {held} {octets}\n" for queue, (held, octets) in enumerate(queues)]
    lines.append(f"unhashed {unhashed}\n")
    lines.append(f"total {len(records)} {sum(len(record) for record in records)}\n")
    return "".join(lines)


def octets_of(name):
    """A missing file is empty."""
    path = pathlib.Path(name)
    return path.read_bytes() if path.exists() else b""


if __name__ == "__main__":
    if len(sys.argv) != 3:
        sys.exit(__doc__)
    print(text(octets_of(sys.argv[1]), octets_of(sys.argv[2])), end="")
