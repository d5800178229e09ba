# Checks what is packed of captures of each form and each kind of link. tools/check reads it.

# Captures whose packets are made by hand: rows of a name, a link, and packets, each with what is due of it, or nothing
# where it has no readable IP header. Each is a pcap, of one order of bytes or the other, and a pcapng. Besides, one of
# several sections and interfaces, and broken ones. `captures` has the names, and `broken` those of the broken ones.
make_captures() {
    python3 - <<'END'
import struct

# So many bytes more a packet had on the wire than in a capture, but those of which a block knows one length.
MORE = 470
# From 10.0.0.1 to 10.0.0.2, and 2001:db8::1 to ::2.
ENDS_4 = bytes.fromhex("0a0000010a000002")
ENDS_6 = bytes.fromhex("20010db8" + "00" * 11 + "01" + "20010db8" + "00" * 11 + "02")
TCP = bytes.fromhex("04000050" + "00" * 8 + "5000" + "00" * 6)
UDP = bytes.fromhex("0400003500080000")
TCP_4, TCP_6 = "tcp 10.0.0.1 1024 10.0.0.2 80", "tcp 2001:db8::1 1024 2001:db8::2 80"
UDP_4, UDP_6 = "udp 10.0.0.1 1024 10.0.0.2 53", "udp 2001:db8::1 1024 2001:db8::2 53"

def four(protocol, body, options="", fragment=0, length=None):
    more = bytes.fromhex(options)
    length = 20 + len(more) + len(body) if length is None else length
    return struct.pack(">BBHHHBBH", 0x45 + len(more) // 4, 0, length, 1, fragment, 64, protocol, 0) + ENDS_4 + more + body

def six(protocol, body):
    return struct.pack(">IHBB", 6 << 28, len(body), protocol, 64) + ENDS_6 + body

def behind(text, *packets):
    """Packets behind bytes of the link."""
    return [(bytes.fromhex(text) + packet, due) for packet, due in packets]

tcp_4, tcp_6 = (four(6, TCP), TCP_4), (six(6, TCP), TCP_6)
udp_4, udp_6 = (four(17, UDP), UDP_4), (six(17, UDP), UDP_6)
nothing, arp = (b"", None), (bytes(28), None)
mac, cooked = "02" * 12, "0000000100060202020202020000"
cooked_2, session = "0000" "00000001" "0001" "00" "06" "0202020202020000", "110000010000"
ROWS = {
    "loopback": (0, behind("02000000", tcp_4) + behind("1e000000", tcp_6) + behind("18000000", udp_6)),
    "loopback-other": (0, behind("00000002", udp_4) + behind("0000001c", udp_6) + behind("00000007", nothing)),
    "loopback-of-openbsd": (108, behind("00000002", tcp_4) + behind("00000018", tcp_6)),
    "raw": (101, [tcp_4, udp_6, (b"\x15" + bytes(40), None), nothing]),
    "raw-12": (12, [udp_4, tcp_6]),
    "raw-14": (14, [udp_4]),
    "ipv4": (228, [tcp_4, (tcp_6[0], None)]),
    "ipv6": (229, [tcp_6, (tcp_4[0], None)]),
    "ppp": (9, behind("0021", tcp_4) + behind("ff030057", tcp_6) + behind("21", udp_4) + behind("c021", nothing)),
    "ppp-hdlc": (50, behind("ff030021", tcp_4)),
    "pppoe": (51, behind(session + "0021", tcp_4) + behind("110900010000", nothing)),
    "ethernet": (1, behind(mac + "0800", tcp_4) + behind(mac + "86dd", udp_6) + behind(mac + "0806", arp)),
    "ethernet-vlans": (1, behind(mac + "8100" "0007" "0800", tcp_4)
        + behind(mac + "88a8" "0007" "8100" "0008" "86dd", tcp_6)),
    "ethernet-mpls": (1, behind(mac + "8847" "00010040" "00020140", tcp_4) + behind(mac + "8847" "00010140", udp_6)),
    "ethernet-pppoe": (1, behind(mac + "8864" + session + "0021", udp_4)
        + behind(mac + "8100" "0007" "8864" + session + "0057", udp_6) + behind(mac + "8863" "110900010000", nothing)),
    "cooked": (113, behind(cooked + "0800", tcp_4) + behind(cooked + "86dd", udp_6)
        + behind(cooked + "8864" + session + "0021", tcp_4) + behind(cooked + "0806", arp)),
    "cooked-2": (276, behind("0800" + cooked_2, udp_4) + behind("86dd" + cooked_2, tcp_6)
        + behind("8100" + cooked_2 + "0007" "0800", tcp_4)),
    "headers": (101, [
        (four(6, TCP, options="01010101"), TCP_4),
        (four(6, TCP, length=0), TCP_4),
        (four(17, UDP, fragment=0x2000), UDP_4),
        (four(17, UDP, fragment=1), "udp 10.0.0.1 - 10.0.0.2 -"),
        (four(1, b"\x08" + bytes(7)), "icmp 10.0.0.1 - 10.0.0.2 -"),
        (four(132, TCP[:12]), "132 10.0.0.1 1024 10.0.0.2 80"),
        (four(47, TCP), "47 10.0.0.1 - 10.0.0.2 -"),
        (six(0, bytes.fromhex("0600010400000000") + TCP), TCP_6),
        (six(60, bytes.fromhex("2b00010400000000" "1100000000000000") + UDP), UDP_6),
        (six(51, bytes.fromhex("1101" "0000" + "00" * 8) + UDP), UDP_6),
        (six(44, bytes.fromhex("1100000100000000") + UDP), UDP_6),
        (six(44, bytes.fromhex("1100000900000000") + UDP), "udp 2001:db8::1 - 2001:db8::2 -"),
        (six(50, bytes(16)), "50 2001:db8::1 - 2001:db8::2 -"),
        (six(58, b"\x80" + bytes(7)), "icmp6 2001:db8::1 - 2001:db8::2 -"),
    ]),
    "headers-cut": (101, [
        (tcp_4[0][:19], None),
        (tcp_4[0][:20], "tcp 10.0.0.1 - 10.0.0.2 -"),
        (tcp_4[0][:39], "tcp 10.0.0.1 - 10.0.0.2 -"),
        (four(6, TCP, options="01010101")[:22], "tcp 10.0.0.1 - 10.0.0.2 -"),
        (four(6, TCP, length=39), "tcp 10.0.0.1 - 10.0.0.2 -"),
        (b"\x44" + tcp_4[0][1:], None),
        (tcp_6[0][:39], None),
        (udp_6[0][:47], "udp 2001:db8::1 - 2001:db8::2 -"),
        (six(0, bytes.fromhex("06000104")), "0 2001:db8::1 - 2001:db8::2 -"),
        (six(0, bytes.fromhex("0609010400000000") + TCP), "tcp 2001:db8::1 - 2001:db8::2 -"),
    ]),
    "ethernet-cut": (1, [(bytes.fromhex(mac + more), None) for more in ("", "08", "0800", "8100", "81000007", "8847",
        "8847000100", "8864", "88641100", "8864110000010000", "886411000001000000", "8864110000010000ff03")]),
}

def pcap(order, link, packets):
    yield struct.pack(order + "IHHiIII", 0xA1B2C3D4, 2, 4, 0, 0, 262144, link)
    for packet in packets:
        yield struct.pack(order + "IIII", 0, 0, len(packet), len(packet) + MORE) + packet

def block(order, kind, body):
    body += bytes(-len(body) % 4)
    length = struct.pack(order + "I", 12 + len(body))
    return struct.pack(order + "I", kind) + length + body + length

def section(order):
    return block(order, 0x0A0D0D0A, struct.pack(order + "IHHq", 0x1A2B3C4D, 1, 0, -1))

def interface(order, link, most=262144):
    return block(order, 1, struct.pack(order + "HHI", link, 0, most) + bytes.fromhex("0100020061620000" "00000000"))

def enhanced(order, number, packet):
    return block(order, 6, struct.pack(order + "IIIII", number, 0, 0, len(packet), len(packet) + MORE) + packet)

def simple(order, packet):
    return block(order, 3, struct.pack(order + "I", len(packet)) + packet)

def old(order, number, packet):
    return block(order, 2, struct.pack(order + "HHIIII", number, 0, 0, 0, len(packet), len(packet)) + packet)

def items_of(length):
    return [255] * (length // 255) + ([length % 255] if length % 255 else [])

def put(name, parts, dues, lengths):
    left_out = sum(due is None for due in dues)
    open(name, "wb").writelines(parts)
    open(f"{name}.due", "w").writelines(f"{due}\n" for due in dues if due)
    weights = (items for due, items in zip(dues, map(items_of, lengths)) if due)
    open(f"{name}.weights", "w").writelines(f"{weight}\n" for items in weights for weight in items)
    told = f"keys: {name}: {left_out} packets without a readable IP address are left out\n"
    open(f"{name}.told", "w").write(told if left_out else "")
    print(name, file=captures)

captures = open("captures", "w")
for number, (name, (link, rows)) in enumerate(ROWS.items()):
    packets, dues = [packet for packet, _ in rows], [due for _, due in rows]
    lengths = [len(packet) + MORE for packet in packets]
    put(f"{name}.pcap", pcap("<>"[number % 2], link, packets), dues, lengths)
    blocks = [section("<"), interface("<", link), *(enhanced("<", 0, packet) for packet in packets)]
    put(f"{name}.pcapng", blocks, dues, lengths)
ethernet, cut = behind(mac + "0800", tcp_4)[0][0], behind("00000002", udp_4)[0][0]
several = [
    section("<"), interface("<", 1), interface("<", 101), block("<", 4, bytes(4)), enhanced("<", 0, ethernet),
    enhanced("<", 1, tcp_6[0]), block("<", 0x0BAD, b"x"), old("<", 1, udp_4[0]), simple("<", ethernet),
    enhanced("<", 1, b""), section(">"), interface(">", 0, 24), enhanced(">", 0, cut), simple(">", cut),
]
lengths = [len(ethernet) + MORE, len(tcp_6[0]) + MORE, len(udp_4[0]), len(ethernet), MORE, len(cut) + MORE, len(cut)]
put("several.pcapng", several, [TCP_4, TCP_6, UDP_4, TCP_4, None, UDP_4, "udp 10.0.0.1 - 10.0.0.2 -"], lengths)
put("bare.pcapng", [section("<")], [], [])

# What is broken: its parts behind a whole packet, the place behind that of the first one, why, whether it can be
# skipped, and whether a whole packet stands behind it.
begin = [section("<"), interface("<", 101), enhanced("<", 0, tcp_4[0])]
last, at = enhanced("<", 0, udp_6[0]), sum(map(len, begin))
small = block("<", 6, struct.pack("<IIIII", 0, 0, 0, 41, 41) + tcp_4[0])
lacks, other = "which the section hasn't got", interface("<", 105)
BROKEN = [
    ("cut-head", [last[:11]], 0, "the file ends inside a block", 1, 0),
    ("cut-body", [last[:-1]], 0, "the file ends inside a block", 1, 0),
    ("other-interface", [enhanced("<", 1, tcp_4[0]), last], 0, f"a packet of interface 1, {lacks}", 1, 1),
    ("no-interface", [begin[0], simple("<", tcp_4[0]), begin[1], last], len(begin[0]),
        f"a packet of interface 0, {lacks}", 1, 1),
    ("other-link", [other, enhanced("<", 1, b"x"), last], len(other),
        "a packet of the link type 105, which isn't known", 1, 1),
    ("longer-packet", [small, last], 0, "a packet of 41 bytes in a block of 72", 1, 1),
    ("short-block", [block("<", 6, bytes(8)), last], 0, "a block of 20 bytes, which is too short", 1, 1),
    ("other-end", [last[:-4] + bytes(4), last], 0, "a block that ends with another length", 0, 0),
    ("odd-length", [last[:4] + b"\x0d" + last[5:]], 0, "a block of 13 bytes", 0, 0),
    ("long-block", [last[:7] + b"\x7f" + last[8:]], 0, "a block of 2130706512 bytes", 0, 0),
    ("no-order", [begin[0].replace(b"\x4d\x3c", b"\x4d\x4d")], 0,
        "a section without the mark of its order of bytes", 0, 0),
]
with open("broken", "w") as rows:
    for name, parts, behind_it, why, can_skip, has_more in BROKEN:
        open(f"{name}.pcapng", "wb").writelines([*begin, *parts])
        print(name, at + behind_it, can_skip, has_more, why, file=rows)
END
}

# names_of CAPTURE WORD..: what is packed of a capture, in its order, and what is said of it.
names_of() {
    local status
    rm -f names
    keys pack --packets five-tuple --names names "${@:2}" --from "$1" - >packed
    status=$?
    names_in packed
    return $status
}

# The weights of what is packed of a capture by the lengths of its packets.
weights_of() {
    keys pack --packets five-tuple --weight bytes --from "$1" packed && keys unpack --weights packed | cut -d' ' -f2
}

# The names of the whole keys of a trace, one a line.
names_in() {
    python3 - "$1" <<'END'
import sqlite3, struct, sys
keys = open(sys.argv[1], "rb").read()[8:]
names = dict(sqlite3.connect("names").execute("SELECT key, name FROM names"))
print(*(names[key].decode() + "\n" for (key,) in struct.iter_unpack("<q", keys[: len(keys) // 8 * 8])), sep="", end="")
END
}

# The same where the bytes come one at a time.
names_of_drops() {
    rm -f names
    python3 -c 'import os, sys
for byte in open(sys.argv[1], "rb").read():
    os.write(1, bytes([byte]))' "$1" | keys pack --packets five-tuple --names names - >packed && names_in packed
}

# What stands in a file, as a text of `gives`.
text_in() { sed 's/$/\\n/' "$1" | tr -d '\n'; }

check_captures() {
    local name at can_skip has_more why told first='tcp 10.0.0.1 1024 10.0.0.2 80\n' more
    has python3 || return
    mkdir -p captures_made && cd captures_made || return
    make_captures
    while read -r name <&3; do
        gives "packs $name" 0 "$(text_in "$name.due")" "$(text_in "$name.told")" names_of "$name"
        gives "packs the bytes of $name" 0 "$(text_in "$name.weights")" "$(text_in "$name.told")" weights_of "$name"
    done 3<captures
    gives 'packs a pcapng that comes byte by byte' 0 "$(text_in several.pcapng.due)" \
        "$(text_in several.pcapng.told | sed 's/several.pcapng/standard input/')" names_of_drops several.pcapng
    gzip <several.pcapng >several.gz
    gives 'packs a pcapng of gzip' 0 "$(text_in several.pcapng.due)" \
        "$(text_in several.pcapng.told | sed 's/several.pcapng/several.gz/')" names_of several.gz
    while read -r name at can_skip has_more why <&3; do
        told="keys: $name.pcapng, byte $at: $why\n"
        gives "refuses $name" 1 "$first" "$told" names_of "$name.pcapng"
        if [ "$can_skip" -eq 1 ]; then
            told="keys: $name.pcapng: 1 records were skipped, the first at byte $at: $why\n"
            [ "$has_more" -eq 1 ] && more='udp 2001:db8::1 1024 2001:db8::2 53\n' || more=
            gives "skips $name" 0 "$first$more" "$told" names_of "$name.pcapng" --skip-bad
        else
            gives "skips no $name" 1 "$first" "$told" names_of "$name.pcapng" --skip-bad
        fi
    done 3<broken
    cd .. || return
}
