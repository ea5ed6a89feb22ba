"""The files of cases that a test program runs, and the digest by which it prints many octets in few."""

# A program reads the files `cases0`, `cases1`, .. one after the other, so many of them and so many octets of each.
MOST_PARTS = 10
MOST_OF_A_PART = 32768


def case_octets(kind, body):
    """The kind, an octet, the length of the body, two octets lowest first, and the body."""
    return bytes([kind]) + len(body).to_bytes(2, "little") + body


def parts(cases):
    """The cases one after the other, in as few parts as they fit, with no case in two of them."""
    made = [b""]
    for kind, body in cases:
        octets = case_octets(kind, body)
        assert len(octets) <= MOST_OF_A_PART, f"a case of {len(octets)} octets does not fit a part of {MOST_OF_A_PART}"
        if len(made[-1]) + len(octets) > MOST_OF_A_PART:
            made.append(b"")
        made[-1] += octets
    return made


def case_files(program, cases):
    """The octets of each file of cases of a program, by the file's name."""
    made = parts(cases)
    assert len(made) <= MOST_PARTS, f"{program} reads no more than {MOST_PARTS} files of cases, not {len(made)}"
    return {f"cases{number}": octets for number, octets in enumerate(made)}


def program_files(program, cases, lines):
    """The stored files of a test program, by their paths below crates/: its cases, and the lines that it must print."""
    stored = {f"{program}/data/{name}": octets for name, octets in case_files(program, cases).items()}
    return {**stored, f"{program}/stdout": "".join(lines).encode()}


def digest(data):
    """A number below 2^32 that depends on every octet and its place."""
    total = 0
    for octet in data:
        total = (total * 257 + octet + 1) % 2**32
    return f"{total:08x}"


def lines(cases, kept, act, printed):
    """What a program prints that acts on one state, which it keeps, case by case."""
    for kind, body in cases:
        answer = act(kept, kind, body)
        yield printed(kept, kind, body, answer)
