"""Captures that tools of others write, out of the example captures and out of packets of their own."""

import pathlib
import subprocess
import sys

import captures

HERE = pathlib.Path(__file__).resolve().parent


def tool(*words, given=b""):
    """What a tool writes to its standard output."""
    done = subprocess.run(words, input=given, capture_output=True, check=False)
    if done.returncode != 0:
        raise SystemExit(f"{' '.join(words)}: {done.stderr.decode(errors='replace')}")
    return done.stdout


def tcpdump(capture, *selection):
    return tool("tcpdump", "-r", "-", "-w", "-", *selection, given=capture)


def editcap(capture, *how, numbers=()):
    return tool("editcap", *how, "-", "-", *numbers, given=capture)


def dump(records):
    """Each record in hexadecimal, sixteen octets on a line behind their place."""
    lines = []
    for record in records:
        lines += [f"{at:06x} {record[at : at + 16].hex(' ')}\n" for at in range(0, len(record), 16)]
    return "".join(lines).encode()


def text2pcap(records, *how):
    return tool("text2pcap", "-q", "-F", "pcap", *how, "-", "-", given=dump(records))


def python_with_scapy():
    """The Python that runs this, or the system's."""
    for python in (sys.executable, "/usr/bin/python3"):
        if subprocess.run([python, "-c", "import scapy"], capture_output=True, check=False).returncode == 0:
            return python
    raise SystemExit("no Python here has scapy (Debian: python3-scapy)")


def scapy(folder, seed):
    """Each file that scapy writes, by its name."""
    tool(python_with_scapy(), str(HERE / "with_scapy.py"), str(folder), str(seed))
    return {path.stem: path.read_bytes() for path in sorted(folder.glob("scapy-*.pcap"))}


def good(folder, by_scapy):
    """Captures that the program must take, each with a name, out of the example captures in a folder."""
    paths = [folder / name for name in ("office.pcap", "tunnel.pcap", "conversation.pcap")]
    office, tunnel, conversation = (path.read_bytes() for path in paths)
    yield "tcpdump, the office", tcpdump(office)
    yield "tcpdump, the tunnel", tcpdump(tunnel)
    yield "tcpdump, the conversation", tcpdump(conversation)
    for selection in ("arp", "ip6", "udp", "ether proto 0x88cc", "tcp port 99"):
        yield f"tcpdump, of the office {selection}", tcpdump(office, selection)
    yield "editcap, frames cut off", editcap(office, "-F", "pcap", "-s", "50", "-r", numbers=["1-90"])
    yield "editcap, packets cut off", editcap(tunnel, "-F", "pcap", "-s", "41")
    yield "editcap, frames as packets", editcap(office, "-F", "pcap", "-T", "rawip", "-r", numbers=["40-80"])
    yield "editcap, packets as frames", editcap(tunnel, "-F", "pcap", "-T", "ether", "-r", numbers=["1-30"])
    _link, records = captures.read(tunnel)[1]
    yield "text2pcap, packets", text2pcap(records[:50], "-l", "101")
    yield "text2pcap, headers over IPv4", text2pcap(records[:20], "-T", "40000,443", "-4", "192.0.2.1,198.51.100.7")
    yield "text2pcap, headers over IPv6", text2pcap(records[:20], "-u", "40000,53", "-6", "2001:db8::1,2001:db8::2")
    yield "text2pcap, another frame type", text2pcap(records[:9], "-e", "0x88cc")
    yield "mergecap, office and conversation", tool("mergecap", "-F", "pcap", "-w", "-", str(paths[0]), str(paths[2]))
    for name, capture in by_scapy.items():
        if not refused_by_name(name):
            yield name, capture


def refused_by_name(name):
    """Which of scapy's files the program must refuse."""
    return captures.BAD_HEADER if "nanoseconds" in name else captures.BAD_RECORD if "too-long" in name else None


def refused(folder, by_scapy):
    """Captures that the program must refuse, each with a name and the number."""
    office = (folder / "office.pcap").read_bytes()
    for kind in ("nsecpcap", "pcapng", "modpcap", "suse6_3pcap"):
        yield f"editcap, {kind}", editcap(office, "-F", kind), captures.BAD_HEADER
    for link in ("linux-sll", "ppp", "null", "ieee-802-11"):
        yield f"editcap, {link}", editcap(office, "-F", "pcap", "-T", link), captures.BAD_HEADER
    for name, capture in by_scapy.items():
        if refused_by_name(name):
            yield name, capture, refused_by_name(name)
