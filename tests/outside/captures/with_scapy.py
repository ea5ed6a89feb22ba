"""Writes captures with scapy: its packets, in both byte orders, at both links. Run by a Python that has scapy.

    python3 with_scapy.py FOLDER SEED
"""

import pathlib
import random
import sys

from scapy.all import (
    ARP,
    ICMP,
    IP,
    TCP,
    UDP,
    Dot1Q,
    Ether,
    ICMPv6EchoRequest,
    IPOption_Router_Alert,
    IPv6,
    IPv6ExtHdrFragment,
    IPv6ExtHdrHopByHop,
    PcapWriter,
    Raw,
    fragment,
)

ETHERNET, RAW_IP = 1, 101


def octets(chance, most):
    return Raw(chance.randbytes(chance.randrange(most)))


def ipv4(chance, **fields):
    ends = [f"10.{chance.randrange(4)}.{chance.randrange(256)}.{chance.randrange(256)}" for _ in range(2)]
    return IP(src=ends[0], dst=ends[1], id=chance.randrange(2**16), **fields)


def ipv6(chance):
    ends = [f"2001:db8::{chance.randrange(2**16):x}:{chance.randrange(2**16):x}" for _ in range(2)]
    return IPv6(src=ends[0], dst=ends[1], fl=chance.randrange(2**20), tc=chance.randrange(256))


def segment(chance):
    return TCP(sport=chance.randrange(2**16), dport=443, seq=chance.randrange(2**32), flags=chance.choice(["S", "A", "PA", "F"]))


def datagram(chance):
    return UDP(sport=chance.randrange(2**16), dport=53)


def ip_packets(chance):
    """One of each sort, and the fragments of a datagram and of a segment."""
    yield ipv4(chance) / segment(chance) / octets(chance, 90)
    yield ipv4(chance, flags="DF") / segment(chance) / octets(chance, 9)
    yield ipv4(chance, tos=chance.randrange(256)) / datagram(chance) / octets(chance, 90)
    yield ipv4(chance) / ICMP() / octets(chance, 60)
    yield ipv4(chance, options=[IPOption_Router_Alert()]) / segment(chance)
    yield ipv4(chance, proto=6)
    yield ipv6(chance) / segment(chance) / octets(chance, 90)
    yield ipv6(chance) / datagram(chance) / octets(chance, 90)
    yield ipv6(chance) / ICMPv6EchoRequest()
    yield ipv6(chance) / IPv6ExtHdrHopByHop() / segment(chance)
    yield ipv6(chance) / IPv6ExtHdrFragment(m=1, id=7) / segment(chance)
    yield from fragment(ipv4(chance) / datagram(chance) / Raw(chance.randbytes(200)), fragsize=80)
    yield from fragment(ipv4(chance) / segment(chance) / Raw(chance.randbytes(100)), fragsize=48)


def ether(**fields):
    """Without given ends scapy would ask the network for them."""
    return Ether(src="52:54:00:00:00:01", dst="52:54:00:00:00:02", **fields)


def frames(chance):
    """The packets in Ethernet frames, and frames without any, or with one behind a tag."""
    for packet in ip_packets(chance):
        yield ether() / packet
    yield ether() / ARP(psrc="10.0.0.1", pdst="10.0.0.2", hwsrc="52:54:00:00:00:01")
    yield ether() / Dot1Q(vlan=7) / ipv4(chance) / segment(chance)
    yield ether() / Dot1Q(vlan=7) / ipv6(chance) / segment(chance)
    yield ether(type=0x88CC) / octets(chance, 50)
    yield ether(type=0x0800)


def write(folder, name, packets, **how):
    """The packets at rising times; a packet above the snap length is cut off there."""
    snap = how.get("snaplen", 65535)
    with PcapWriter(str(folder / name), **how) as writer:
        writer.write_header(None)
        for n, packet in enumerate(packets):
            data = bytes(packet)
            writer.write_packet(data[:snap], sec=1_700_000_000 + n, usec=n * 7919 % 10**6, wirelen=len(data))


def main(folder, seed):
    chance = random.Random(f"scapy {seed}")
    for order, sign in (("little", "<"), ("big", ">")):
        ethernet = {"linktype": ETHERNET, "endianness": sign}
        write(folder, f"scapy-frames-{order}.pcap", [f for _ in range(4) for f in frames(chance)], **ethernet)
        write(folder, f"scapy-cut-{order}.pcap", frames(chance), snaplen=45, **ethernet)
        raw = {"linktype": RAW_IP, "endianness": sign}
        write(folder, f"scapy-packets-{order}.pcap", [p for _ in range(4) for p in ip_packets(chance)], **raw)
        write(folder, f"scapy-longest-{order}.pcap", [ipv4(chance) / segment(chance) / Raw(bytes(2008))], **raw)
        write(folder, f"scapy-too-long-{order}.pcap", [ipv4(chance) / segment(chance) / Raw(bytes(2009))], **raw)
        write(folder, f"scapy-nanoseconds-{order}.pcap", frames(chance), nano=True, **ethernet)


if __name__ == "__main__":
    main(pathlib.Path(sys.argv[1]), sys.argv[2])
