"""The guest's end of the ring, rule by rule, for people who do not read proofs.

Everything here is read off the request for it (document 02, item 1) and document 01 ("What each call answers", "The
shared page", "Messages"). It is written to be read and to be slow, an octet at a time: it shares no code and no method
with the proved guest, and its answers are what the guest's are compared with.
"""

import messages
from messages import number, octets
from ring import AREA, HEADER_LENGTH, PAGE_LENGTH, REQUESTS, RESPONSES, less, next_count

# Where the four counts stand on the page.
REQ_CONS, REQ_PROD, RSP_CONS, RSP_PROD = 0, 4, 8, 12

# The phases: no request; a request and no whole ack; an ack was refused, which only a new setup ends.
IDLE, OUTSTANDING, FAILED = range(3)

# What a call answers, by the documents' numbers. The writer's own refusals are 8 and 11.
PENDING = 0
ACKED = 1
REQUEST_OWED = 2
PAGE_LENGTH_WRONG = 3
REQUESTS_TOO_FAR = 4
RESPONSES_TOO_FAR = 5
ACK_REFUSED = 12
REQUEST_OUTSTANDING = 13

ACK_SIZES = (8, 16)
LONGEST_REQUEST = 8 + 8 * 128


def set_up():
    return {
        "phase": IDLE,
        "req_prod": 0,
        "rsp_cons": 0,
        # the type of the request, and what is still to be written of it
        "kind": None,
        "owed": b"",
        # what was read of its ack
        "ack": b"",
    }


def count_at(page, place):
    return number(page[place : place + 4])


def hindrance(guest, page):
    """Why any call is refused, or None. The page's own req_prod and rsp_cons are not looked at, here or elsewhere."""
    if len(page) != PAGE_LENGTH:
        return PAGE_LENGTH_WRONG
    if less(guest["req_prod"], count_at(page, REQ_CONS)) > AREA:
        return REQUESTS_TOO_FAR
    if less(count_at(page, RSP_PROD), guest["rsp_cons"]) > AREA:
        return RESPONSES_TOO_FAR
    if guest["phase"] == FAILED:
        return ACK_REFUSED
    return None


def put_counts(guest, page):
    page[REQ_PROD : REQ_PROD + 4] = octets(guest["req_prod"], 4)
    page[RSP_CONS : RSP_CONS + 4] = octets(guest["rsp_cons"], 4)


def write_request(guest, page):
    """As much of the request as fits, and the answer. The room is what the octets not yet read by the host leave."""
    req_cons = count_at(page, REQ_CONS)
    while guest["owed"] and less(guest["req_prod"], req_cons) < AREA:
        page[REQUESTS + guest["req_prod"] % AREA] = guest["owed"][0]
        guest["owed"] = guest["owed"][1:]
        guest["req_prod"] = next_count(guest["req_prod"])
    return (REQUEST_OWED,) if guest["owed"] else (PENDING,)


def judge_ack(guest):
    """What is said of the octets read so far: nothing yet, the status and any flags, or a refusal."""
    ack = guest["ack"]
    if len(ack) < HEADER_LENGTH:
        return (PENDING,)
    size = number(ack[4:8])
    if size not in ACK_SIZES:
        return (ACK_REFUSED,)
    if len(ack) < HEADER_LENGTH + size:
        return (PENDING,)
    word, value = messages.read_ack(guest["kind"], ack)
    if word == "refused":
        return (ACK_REFUSED,)
    return (ACKED, 0, value) if word == "flags" else (ACKED, value)


def read_ack(guest, page):
    """Octets are read until the ack is whole or refused or none is left. Octets behind the ack stay."""
    rsp_prod = count_at(page, RSP_PROD)
    answer = (PENDING,)
    while answer == (PENDING,) and guest["rsp_cons"] != rsp_prod:
        guest["ack"] += bytes([page[RESPONSES + guest["rsp_cons"] % AREA]])
        guest["rsp_cons"] = next_count(guest["rsp_cons"])
        answer = judge_ack(guest)
    return answer


def start(guest, page, written):
    """A request begun. `written` is what the writer answers, and its buffer with the message."""
    refused = hindrance(guest, page)
    if refused is None and guest["phase"] == OUTSTANDING:
        refused = REQUEST_OUTSTANDING
    (word, value), buffer = written
    if refused is None and word == "refused":
        refused = value
    if refused is not None:
        return (refused,), guest, page

    left, changed = dict(guest), bytearray(page)
    left["phase"], left["kind"], left["owed"], left["ack"] = OUTSTANDING, number(buffer[:4]), buffer[:value], b""
    answer = write_request(left, changed)
    put_counts(left, changed)
    return answer, left, bytes(changed)


def start_get_flags(guest, page):
    return start(guest, page, messages.write_get_flags(bytes(LONGEST_REQUEST)))


def start_set_flags(guest, page, flags):
    return start(guest, page, messages.write_set_flags(flags, bytes(LONGEST_REQUEST)))


def start_set_key(guest, page, key):
    return start(guest, page, messages.write_set_key(key, bytes(LONGEST_REQUEST)))


def start_set_mapping(guest, page, entries):
    return start(guest, page, messages.write_set_mapping(entries, bytes(LONGEST_REQUEST)))


def event(guest, page):
    """What an event answers, the guest that it leaves, and the page that it leaves."""
    refused = hindrance(guest, page)
    if refused is not None:
        return (refused,), guest, page

    left, changed = dict(guest), bytearray(page)
    if left["phase"] == IDLE:
        answer = (PENDING,)
    elif left["owed"]:
        answer = write_request(left, changed)
    else:
        answer = read_ack(left, changed)
        if answer == (ACK_REFUSED,):
            # nothing of this call counts but that the guest has failed
            return answer, {**guest, "phase": FAILED}, page
        if answer[0] == ACKED:
            left["phase"], left["ack"] = IDLE, b""
    put_counts(left, changed)
    return answer, left, bytes(changed)
