"""One interface and its control ring, rule by rule, for people who do not read proofs.

Everything here is read off document 01 ("Numbers", "What each call answers", "The shared page"). It is written to be
read and to be slow, an octet at a time: it shares no code and no method with the proved backend, and its answers are
what the backend's are compared with.
"""

import messages
from messages import number, octets

PAGE_LENGTH = 4096
AREA = 1024
REQUESTS = 16
RESPONSES = 1040
MOST_QUEUES = 64
HEADER_LENGTH = 8

# What an event answers, and the refusal of a setup, by document 01's numbers.
WAITING = 0
ACK_WRITTEN = 1
ACK_OWED = 2
PAGE_LENGTH_WRONG = 3
REQUESTS_TOO_FAR = 4
RESPONSES_TOO_FAR = 5
QUEUE_COUNT_WRONG = 6


def less(count, other):
    """The difference of two counts, which run over from 2^32 - 1 to 0."""
    return (count - other) % 2**32


def next_count(count):
    return (count + 1) % 2**32


def set_up(queues):
    """A new interface, or None where setup is refused."""
    if queues == 0 or queues > MOST_QUEUES:
        return None
    return {
        "req_cons": 0,
        "rsp_prod": 0,
        # what was read of the present message: its header, the payload kept, and how much payload was dropped
        "header": b"",
        "payload": b"",
        "dropped": 0,
        # what is still to be written of the last ack
        "owed": b"",
        "settings": messages.settings_at_setup(queues),
    }


def whole(interface):
    """Whether the present message has its header and as much payload as the header says."""
    if len(interface["header"]) < HEADER_LENGTH:
        return False
    return len(interface["payload"]) + interface["dropped"] == number(interface["header"][4:8])


def add_octet(interface, octet):
    """One more octet of the present message. Payload behind the first 1,024 octets is counted and dropped."""
    if len(interface["header"]) < HEADER_LENGTH:
        interface["header"] += bytes([octet])
    elif len(interface["payload"]) < messages.MAX_PAYLOAD:
        interface["payload"] += bytes([octet])
    else:
        interface["dropped"] += 1


def read_requests(interface, page, req_prod):
    """Octets are read until the present message is whole or none is left."""
    while not whole(interface) and interface["req_cons"] != req_prod:
        add_octet(interface, page[REQUESTS + interface["req_cons"] % AREA])
        interface["req_cons"] = next_count(interface["req_cons"])


def carry_out(interface):
    """The whole message takes effect, its ack is owed, and the next message begins with nothing read of it."""
    kind, size = number(interface["header"][:4]), number(interface["header"][4:])
    interface["settings"], interface["owed"] = messages.carry_out(
        interface["settings"], kind, size, interface["payload"]
    )
    interface["header"], interface["payload"], interface["dropped"] = b"", b"", 0


def write_ack(interface, page, rsp_cons):
    """As much of the ack as fits, and the answer. The room is what the octets not yet read by the guest leave."""
    while interface["owed"] and less(interface["rsp_prod"], rsp_cons) < AREA:
        page[RESPONSES + interface["rsp_prod"] % AREA] = interface["owed"][0]
        interface["owed"] = interface["owed"][1:]
        interface["rsp_prod"] = next_count(interface["rsp_prod"])
    return ACK_OWED if interface["owed"] else ACK_WRITTEN


def event(interface, page):
    """What an event answers, the interface that it leaves, and the page that it leaves."""
    if len(page) != PAGE_LENGTH:
        return PAGE_LENGTH_WRONG, interface, page
    req_prod, rsp_cons = number(page[4:8]), number(page[8:12])
    if less(req_prod, interface["req_cons"]) > AREA:
        return REQUESTS_TOO_FAR, interface, page
    if less(interface["rsp_prod"], rsp_cons) > AREA:
        return RESPONSES_TOO_FAR, interface, page

    left, written = dict(interface), bytearray(page)
    if left["owed"]:
        answer = write_ack(left, written, rsp_cons)
    else:
        read_requests(left, written, req_prod)
        if whole(left):
            carry_out(left)
            answer = write_ack(left, written, rsp_cons)
        else:
            answer = WAITING
    # what the page said for these two was never read
    written[0:4] = octets(left["req_cons"], 4)
    written[12:16] = octets(left["rsp_prod"], 4)
    return answer, left, bytes(written)
