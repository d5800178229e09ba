"""The packets of a capture, as tcpdump, Wireshark and dumpcap write it: of a pcap file, or of a pcapng file, whose
sections may have the one or the other order of bytes, and whose interfaces have each a link of its own.
"""

from __future__ import annotations

import struct
from typing import Container, Iterator

from .inputs import Source

# The order of the bytes, by the first four of a pcap file, which tell the unit of its times too.
ORDERS = {b"\xd4\xc3\xb2\xa1": "<", b"\x4d\x3c\xb2\xa1": "<", b"\xa1\xb2\xc3\xd4": ">", b"\xa1\xb2\x3c\x4d": ">"}
MAGIC_LEN = 4
HEADER_LEN = 24
LINK_AT = 20
RECORD_LEN = 16
# Who writes captures writes none that is longer.
MOST_PACKET = 1 << 18
# A block of a pcapng file: its kind, its length, what it has, and its length again. The first one of a section has
# behind its length what tells the order.
SECTION = b"\x0a\x0d\x0d\x0a"
SECTION_ORDERS = {b"\x4d\x3c\x2b\x1a": "<", b"\x1a\x2b\x3c\x4d": ">"}
INTERFACE, OLD_PACKET, SIMPLE_PACKET, PACKET = 1, 2, 3, 6
LEAST_BLOCK, MOST_BLOCK = 12, 1 << 24

# A packet behind its link, with its length on the wire, of which a capture may have a part alone.
Packet = tuple[int, bytes, int]


class Pcap:
    """A file of packets of one link."""

    def __init__(self, source: Source, known: Container[int]) -> None:
        data = b""
        while len(data) < HEADER_LEN and (more := source.read()):
            data += more
        order = ORDERS.get(data[:MAGIC_LEN])
        if order is None or len(data) < HEADER_LEN:
            raise source.refusal("byte 0", "no pcap or pcapng file")
        self.source = source
        self.data = data[HEADER_LEN:]
        (link,) = struct.unpack_from(f"{order}I", data, LINK_AT)
        # The other bits tell of checksums.
        self.link = link & 0xFFFF
        if self.link not in known:
            raise source.refusal(f"byte {LINK_AT}", f"packets of the link type {self.link}, which isn't known")
        self.lengths = struct.Struct(f"{order}8xII")

    def packets(self) -> Iterator[list[Packet]]:
        """The packets as they come, many at once."""
        data, place = self.data, HEADER_LEN
        while True:
            several, at = self.whole(data)
            if several:
                yield several
            data, place = data[at:], place + at
            self.check_length(data, place)
            more = self.source.read()
            if not more:
                break
            data += more
        if data:
            self.source.refuse(f"byte {place}", "the file ends inside a packet")

    def check_length(self, data: bytes, place: int) -> None:
        """Where a packet is longer than any, nothing says where the next one begins, so that it can't be skipped."""
        if len(data) >= RECORD_LEN:
            length, _on_wire = self.lengths.unpack_from(data)
            if length > MOST_PACKET:
                raise self.source.refusal(f"byte {place}", f"a packet of {length} bytes")

    def whole(self, data: bytes) -> tuple[list[Packet], int]:
        """The packets that are whole at the front of these bytes, and their end."""
        several, at, link = [], 0, self.link
        while len(data) - at >= RECORD_LEN:
            length, on_wire = self.lengths.unpack_from(data, at)
            end = at + RECORD_LEN + length
            if end > len(data) or length > MOST_PACKET:
                break
            several.append((link, data[at + RECORD_LEN : end], on_wire))
            at = end
        return several, at


class Broken(Exception):
    """A block that isn't in the format. Where its length is 0, nothing says where the next one begins."""

    def __init__(self, why: str, length: int = 0) -> None:
        super().__init__(why)
        self.length = length


class Pcapng:
    """A file of blocks, of which some are packets."""

    def __init__(self, source: Source, known: Container[int]) -> None:
        self.source = source
        self.known = known
        self.order = "<"
        # Of each interface of this section: its link, and the most bytes of a packet, or 0.
        self.interfaces: list[tuple[int, int]] = []

    def packets(self) -> Iterator[list[Packet]]:
        """The packets as they come, many at once."""
        data, place, broken = b"", 0, None
        while broken or (more := self.source.read()):
            data += b"" if broken else more
            found, at, broken = self.whole(data)
            if found:
                yield found
            data, place = data[at:], place + at
            if broken:
                self.refuse(place, broken)
                data, place = data[broken.length :], place + broken.length
        if data:
            self.source.refuse(f"byte {place}", "the file ends inside a block")

    def refuse(self, place: int, broken: Broken) -> None:
        if not broken.length:
            raise self.source.refusal(f"byte {place}", str(broken))
        self.source.refuse(f"byte {place}", str(broken))

    def whole(self, data: bytes) -> tuple[list[Packet], int, Broken | None]:
        """The packets of the blocks that are whole at the front of these bytes, their end, and what is amiss with the
        block behind them."""
        found, at = [], 0
        try:
            while (length := self.length_at(data, at)) and at + length <= len(data):
                packet = self.packet_in(data[at : at + length])
                if packet is not None:
                    found.append(packet)
                at += length
        except Broken as broken:
            return found, at, broken
        return found, at, None

    def length_at(self, data: bytes, at: int) -> int:
        """The length of the block that begins here; 0 where it isn't there yet."""
        if len(data) - at < LEAST_BLOCK:
            return 0
        if data[at : at + MAGIC_LEN] == SECTION:
            order = SECTION_ORDERS.get(data[at + 8 : at + 12])
            if order is None:
                raise Broken("a section without the mark of its order of bytes")
            self.order = order
        (length,) = struct.unpack_from(f"{self.order}4xI", data, at)
        if length < LEAST_BLOCK or length > MOST_BLOCK or length % 4:
            raise Broken(f"a block of {length} bytes")
        return length

    def packet_in(self, block: bytes) -> Packet | None:
        """The packet of a block, if it has one."""
        kind, length, last = *struct.unpack_from(f"{self.order}II", block), block[-4:]
        if last != block[4:8]:
            raise Broken("a block that ends with another length")
        try:
            if block[:MAGIC_LEN] == SECTION:
                self.interfaces = []
            elif kind == INTERFACE:
                self.interfaces.append(struct.unpack_from(f"{self.order}8xHxxI", block[:-4]))
            elif kind == PACKET:
                return self.packet(block, 28, *struct.unpack_from(f"{self.order}8xI8xII", block[:-4]))
            elif kind == OLD_PACKET:
                return self.packet(block, 28, *struct.unpack_from(f"{self.order}8xH10xII", block[:-4]))
            elif kind == SIMPLE_PACKET:
                most = self.interfaces[0][1] if self.interfaces else 0
                (whole,) = struct.unpack_from(f"{self.order}8xI", block[:-4])
                return self.packet(block, 12, 0, min(whole, most or whole, length - 16), whole)
        except struct.error:
            raise Broken(f"a block of {length} bytes, which is too short", length) from None
        return None

    def packet(self, block: bytes, at: int, interface: int, length: int, on_wire: int) -> Packet:
        if interface >= len(self.interfaces):
            raise Broken(f"a packet of interface {interface}, which the section hasn't got", len(block))
        if length > len(block) - at - 4:
            raise Broken(f"a packet of {length} bytes in a block of {len(block)}", len(block))
        link = self.interfaces[interface][0]
        if link not in self.known:
            raise Broken(f"a packet of the link type {link}, which isn't known", len(block))
        return link, block[at : at + length], on_wire


def captured(source: Source, known: Container[int]) -> Iterator[list[Packet]]:
    """The packets of a capture as they come. Of another link than the known ones they are refused."""
    data = b""
    while len(data) < MAGIC_LEN and (more := source.read()):
        data += more
    form = Pcapng if data.startswith(SECTION) else Pcap
    source.put_back(data)
    yield from form(source, known).packets()
