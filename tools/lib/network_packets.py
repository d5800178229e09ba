"""What keys are made of in a capture: the addresses of its packets, or their five-tuples.

The IP header is sought behind the head of the link, tags of VLANs, labels of MPLS and PPPoE. A packet without a
readable IP header is left out. Of one inside another, as in a tunnel, the outer one counts.
"""

from __future__ import annotations

import socket
import struct
import sys
from functools import cache, lru_cache, partial
from typing import Callable, Iterator, NamedTuple

from .captures import captured
from .inputs import Batch, Source

# Of the most usual links, where the IP header begins, and the two bytes before it that say its version.
ETHERNET, COOKED, COOKED_2 = 1, 113, 276
PLACES = {ETHERNET: (14, 12), COOKED: (16, 14), COOKED_2: (20, 0)}
VERSION_4, VERSION_6 = b"\x08\x00", b"\x86\xdd"
VERSIONS = {VERSION_4: 4, VERSION_6: 6}
# What may stand before it besides, by its two bytes: tags of 4 bytes, labels of 4 bytes of which the last one is
# marked, and PPP over Ethernet.
TAGS = {b"\x81\x00", b"\x88\xa8", b"\x91\x00", b"\x92\x00"}
LABELS = {b"\x88\x47", b"\x88\x48"}
SESSION = b"\x88\x64"
SESSION_LEN = 6
# The protocols of PPP, and what may stand before them.
PPP_VERSIONS = {0x21: 4, 0x57: 6}
PPP_HEAD = b"\xff\x03"
# What a loopback's first four bytes say, by the system that wrote them, in one order of bytes or the other.
FAMILIES = {2: 4, 10: 6, 24: 6, 28: 6, 30: 6}
LOOPBACKS = {family.to_bytes(4, order): version for family, version in FAMILIES.items() for order in ("little", "big")}
# The headers of IP, and with the ports behind them.
HEADER_4 = struct.Struct(">BxHxxHxBxx4s4s")
HEADER_6 = struct.Struct(">IHBx16s16s")
USUAL_4 = struct.Struct(HEADER_4.format + "HH")
USUAL_6 = struct.Struct(HEADER_6.format + "HH")
PORTS = struct.Struct(">HH")
OFFSET = 0x1FFF
TCP, UDP, SCTP = 6, 17, 132
# The least length of a header, and where that of TCP tells its length.
LEAST = {TCP: 20, UDP: 8, SCTP: 12}
LENGTH_AT = 12
PROTOCOLS = {1: b"icmp", TCP: b"tcp", UDP: b"udp", 58: b"icmp6"}
# What may stand between an IP header of version 6 and the protocol.
FRAGMENT, AUTHENTICATION = 44, 51
EXTENSIONS = {0, 43, FRAGMENT, AUTHENTICATION, 60}
LEAST_EXTENSION = 8

# The version of an IP header, and where it begins; version 0 where its own first byte says it.
Place = tuple[int, int]


class Ends(NamedTuple):
    """From where to where a packet goes. It has no ports where it is of another protocol, or a later fragment."""

    protocol: int
    source: bytes
    destination: bytes
    sport: int | None = None
    dport: int | None = None


@lru_cache(1 << 12)
def address(packed: bytes) -> bytes:
    return socket.inet_ntop(socket.AF_INET if len(packed) == 4 else socket.AF_INET6, packed).encode()


def five_tuple(ends: Ends) -> bytes:
    protocol = PROTOCOLS.get(ends.protocol) or b"%d" % ends.protocol
    sport, dport = (b"-" if port is None else b"%d" % port for port in ends[3:])
    return b" ".join((protocol, address(ends.source), sport, address(ends.destination), dport))


VALUES: dict[str, Callable[[Ends], bytes]] = {
    "source": lambda ends: address(ends.source),
    "destination": lambda ends: address(ends.destination),
    "pair": lambda ends: address(ends.source) + b" " + address(ends.destination),
    "five-tuple": five_tuple,
}


# --- what the IP header says


def is_whole(data: bytes, at: int, protocol: int, length: int) -> bool:
    """Whether the header of a protocol with ports is whole at this place, of as many bytes as the IP header tells."""
    least = LEAST.get(protocol)
    if least is None or length < least or len(data) < at + least:
        return False
    return protocol != TCP or data[at + LENGTH_AT] >> 4 >= 5


def usual_ends(data: bytes, at: int, version_at: int) -> Ends | None:
    """Those of a packet with ports in its first fragment, whose IP header has no options; else nothing."""
    version = data[version_at : version_at + 2]
    if version == VERSION_4 and len(data) >= at + USUAL_4.size:
        first, length, fragment, protocol, source, destination, *ports = USUAL_4.unpack_from(data, at)
        if first == 0x45 and not fragment & OFFSET and is_whole(data, at + 20, protocol, length - 20):
            return Ends(protocol, source, destination, *ports)
    elif version == VERSION_6 and len(data) >= at + USUAL_6.size:
        first, length, protocol, source, destination, *ports = USUAL_6.unpack_from(data, at)
        if first >> 28 == 6 and is_whole(data, at + 40, protocol, length):
            return Ends(protocol, source, destination, *ports)
    return None


def with_ports(ends: Ends, data: bytes, at: int, end: int) -> Ends:
    return Ends(*ends[:3], *PORTS.unpack_from(data, at)) if is_whole(data, at, ends.protocol, end - at) else ends


def ends_4(data: bytes, at: int) -> Ends | None:
    first, length, fragment, *rest = HEADER_4.unpack_from(data, at)
    if first >> 4 != 4 or first & 15 < 5:
        return None
    # Who hands large packets to the network card leaves the length at 0.
    end = at + length if length else len(data)
    ends = Ends(*rest)
    return ends if fragment & OFFSET else with_ports(ends, data, at + 4 * (first & 15), end)


def ends_6(data: bytes, at: int) -> Ends | None:
    first, length, protocol, source, destination = HEADER_6.unpack_from(data, at)
    if first >> 28 != 6:
        return None
    at += HEADER_6.size
    end = at + length if length else len(data)
    while protocol in EXTENSIONS and min(end, len(data)) >= at + LEAST_EXTENSION:
        (offset,) = struct.unpack_from(">H", data, at + 2)
        if protocol == FRAGMENT and offset >> 3:
            return Ends(data[at], source, destination)
        words = 0 if protocol == FRAGMENT else data[at + 1]
        protocol, at = data[at], at + (4 * (words + 2) if protocol == AUTHENTICATION else 8 * (words + 1))
    return with_ports(Ends(protocol, source, destination), data, at, end)


# --- what stands before it


def behind_ppp(data: bytes, at: int = 0) -> Place | None:
    if data[at : at + 2] == PPP_HEAD:
        at += 2
    # The protocol has one byte, which is odd, or two.
    behind = at + 1 if data[at] & 1 else at + 2
    version = PPP_VERSIONS.get(int.from_bytes(data[at:behind], "big"))
    return (version, behind) if version else None


def behind_session(data: bytes, at: int = 0) -> Place | None:
    is_session = data[at : at + 2] == b"\x11\x00"
    return behind_ppp(data, at + SESSION_LEN) if is_session else None


def behind_type(data: bytes, at: int, type_at: int) -> Place | None:
    """What stands behind the two bytes that say what does."""
    kind = data[type_at : type_at + 2]
    while kind in TAGS:
        kind, at = data[at + 2 : at + 4], at + 4
    if kind in LABELS:
        while not data[at + 2] & 1:
            at += 4
        return 0, at + 4
    if kind == SESSION:
        return behind_session(data, at)
    version = VERSIONS.get(kind)
    return (version, at) if version else None


def behind_loopback(data: bytes) -> Place | None:
    version = LOOPBACKS.get(data[:4])
    return (version, 4) if version else None


def at_once(version: int) -> Callable[[bytes], Place]:
    return lambda _: (version, 0)


# By the numbers that captures have for kinds of links: https://www.tcpdump.org/linktypes.html
LINKS: dict[int, Callable[[bytes], Place | None]] = {
    **{link: partial(behind_type, at=at, type_at=type_at) for link, (at, type_at) in PLACES.items()},
    **dict.fromkeys((0, 108), behind_loopback),
    **dict.fromkeys((9, 50), behind_ppp),
    51: behind_session,
    **dict.fromkeys((12, 14, 101), at_once(0)),
    228: at_once(4),
    229: at_once(6),
}


def ends_behind(link: int, data: bytes) -> Ends | None:
    """Those of any packet of a link."""
    try:
        place = LINKS[link](data)
        if place is None:
            return None
        version, at = place
        return {4: ends_4, 6: ends_6}.get(version or data[at] >> 4, lambda *_: None)(data, at)
    except (IndexError, struct.error):
        # It ends before.
        return None


@cache
def reader_of(link: int) -> Callable[[bytes], Ends | None]:
    """What finds the ends of a packet of a link."""
    places = PLACES.get(link)
    if places is None:
        return partial(ends_behind, link)
    return lambda data: usual_ends(data, *places) or ends_behind(link, data)


def packets(source: Source, what: str, weighs: bool = False) -> Iterator[Batch]:
    """One of the `VALUES` of each packet. Its amount is its length on the wire, where one is wanted."""
    value = VALUES[what]
    number = left_out = 0
    for several in captured(source, LINKS):
        found = [reader_of(link)(data) for link, data, _ in several]
        places = [place for place, ends in enumerate(found, start=number + 1) if ends]
        number += len(several)
        left_out += len(several) - len(places)
        if places:
            amounts = [on_wire for ends, (_, _, on_wire) in zip(found, several) if ends] if weighs else None
            yield Batch([value(ends) for ends in found if ends], places, "packet", amounts)
    if left_out:
        print(f"keys: {source.name}: {left_out} packets without a readable IP address are left out", file=sys.stderr)
