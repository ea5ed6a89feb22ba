"""Control messages, rule by rule, for people who do not read proofs: the host's requests and acks, and the guest's
writer and ack reader.

Everything here is read off document 01 ("Numbers", "What each call answers", "Messages"). It is written to be read
and to be slow: it shares no code and no method with the proved backend, and its answers are what the backend's are
compared with.
"""

KEY_LENGTH = 40
MAX_PAYLOAD = 1024
MAX_ENTRIES = 128
SUPPORTED = 15

# The refusals, by document 01's numbers.
KEY_LENGTH_WRONG = 8
BUFFER_TOO_SHORT = 10
VALUE_NOT_LISTED = 11
NOT_AN_ACK = 12

ACK, GET_FLAGS, SET_FLAGS, SET_KEY, SET_MAPPING = 1, 2, 3, 4, 5


def octets(value, width):
    """A number in that many octets, the lowest first."""
    return value.to_bytes(width, "little")


def number(data):
    return int.from_bytes(data, "little")


def message(kind, payload):
    """Type, size of the payload, payload."""
    return octets(kind, 4) + octets(len(payload), 4) + payload


def settings_at_setup(queues):
    return {"queues": queues, "flags": 0, "key": bytes(KEY_LENGTH), "table": [0]}


def power_of_two(count):
    return bin(count).count("1") == 1


def judge(settings, kind, size, payload):
    """The status of a request, and the settings with its effect (as before, where the status is not 0)."""
    same = dict(settings)
    if kind == GET_FLAGS:
        return (0 if size == 0 else 2), same
    if kind == SET_FLAGS:
        if size != 8:
            return 2, same
        value = number(payload[:8])
        if value > 15:
            return 2, same
        return 0, {**settings, "flags": value}
    if kind == SET_KEY:
        if size != 40:
            return 2, same
        return 0, {**settings, "key": bytes(payload[:40])}
    if kind == SET_MAPPING:
        return judge_mapping(settings, size, payload)
    return 1, same


def judge_mapping(settings, size, payload):
    same = dict(settings)
    if size % 8:
        return 2, same
    if not power_of_two(size // 8):
        return 2, same
    if size // 8 > MAX_ENTRIES:
        return 3, same
    table = [number(payload[at : at + 8]) for at in range(0, size, 8)]
    if any(queue >= settings["queues"] for queue in table):
        return 2, same
    return 0, {**settings, "table": table}


def carry_out(settings, kind, size, payload):
    """A message carried out: the settings that it leaves, and its ack."""
    status, left = judge(settings, kind, size, payload)
    answer = octets(status, 8)
    if kind == GET_FLAGS and status == 0:
        answer += octets(SUPPORTED, 8)
    return left, message(ACK, answer)


def put(data, buffer):
    """The message at the start of the buffer, the octets behind it unchanged; or the refusal, and the buffer as it was."""
    if len(buffer) < len(data):
        return ("refused", BUFFER_TOO_SHORT), buffer
    return ("length", len(data)), data + buffer[len(data) :]


def write_get_flags(buffer):
    return put(message(GET_FLAGS, b""), buffer)


def write_set_flags(flags, buffer):
    if flags > 15:
        return ("refused", VALUE_NOT_LISTED), buffer
    return put(message(SET_FLAGS, octets(flags, 8)), buffer)


def write_set_key(key, buffer):
    if len(key) != KEY_LENGTH:
        return ("refused", KEY_LENGTH_WRONG), buffer
    return put(message(SET_KEY, key), buffer)


def write_set_mapping(entries, buffer):
    if len(entries) not in [1, 2, 4, 8, 16, 32, 64, 128]:
        return ("refused", VALUE_NOT_LISTED), buffer
    return put(message(SET_MAPPING, b"".join(octets(entry, 8) for entry in entries)), buffer)


def read_ack(kind, data):
    """What the guest's reader answers, told the request's type: status and any flags, or the refusal."""
    refused = ("refused", NOT_AN_ACK)
    if len(data) < 8:
        return refused
    size = number(data[4:8])
    if len(data) != 8 + size or number(data[:4]) != ACK:
        return refused
    if size not in (8, 16):
        return refused
    status = number(data[8:16])
    if status > 3:
        return refused
    if not 2 <= kind <= 5 and status != 1:
        return refused
    if kind == GET_FLAGS and status == 0:
        if size != 16 or number(data[16:24]) > 15:
            return refused
        return ("flags", number(data[16:24]))
    if size != 8:
        return refused
    return ("status", status)
