# Checks what is packed of packets. tools/check reads it.

# A pcap of packets with known addresses and ports, of which some have none, and what a plain count makes due.
make_packets() {
    python3 - <<'END'
import random, socket, struct
from collections import Counter

def pcap(packets, link):
    yield struct.pack("<IHHiIII", 0xA1B2C3D4, 2, 4, 0, 0, 262144, link)
    for packet in packets:
        yield struct.pack("<IIII", 0, 0, len(packet), len(packet)) + packet

def packet(protocol, source, sport, destination, dport, fragment=0):
    ports = struct.pack(">HH", sport, dport)
    body = {6: ports + bytes(8) + b"\x50" + bytes(7), 17: ports + b"\0\x08\0\0", 1: b"\x08" + bytes(7)}[protocol]
    if ":" in source:
        ends = (socket.inet_pton(socket.AF_INET6, end) for end in (source, destination))
        return b"\x86\xdd" + struct.pack(">IHBB", 6 << 28, len(body), protocol, 64) + b"".join(ends) + body
    ends = (socket.inet_aton(end) for end in (source, destination))
    head = struct.pack(">BBHHHBBH", 0x45, 0, 20 + len(body), 1, fragment, 64, protocol, 0)
    return b"\x08\x00" + head + b"".join(ends) + body

draw = random.Random(2)
hosts = ["10.0.0.1", "10.0.0.2", "192.168.7.255", "2001:db8::1", "fe80::2"]
flows, packets = [], []
for _ in range(1500):
    source = draw.choice(hosts)
    destination = draw.choice([host for host in hosts if (":" in host) == (":" in source)])
    protocol = draw.choice([6, 6, 17] if ":" in source else [6, 6, 17, 1])
    sport, dport = draw.choice([1024, 65535]), draw.choice([22, 53])
    later = protocol == 17 and ":" not in source and draw.random() < 0.2
    packets.append(packet(protocol, source, sport, destination, dport, 7 if later else 0))
    ports = ("-", "-") if protocol == 1 or later else (sport, dport)
    flows.append(({1: "icmp", 6: "tcp", 17: "udp"}[protocol], source, ports[0], destination, ports[1]))
    if draw.random() < 0.1:
        packets.append(b"\x08\x06" + bytes(28))
open("flows.pcap", "wb").writelines(pcap((bytes(12) + one for one in packets), 1))
open("raw.pcap", "wb").writelines(pcap((one[2:] for one in packets if one[0] != 8 or one[1] != 6), 101))
raw = [one[2:] for one in packets if one[:2] != b"\x08\x06"]
three = b"".join(pcap(raw[:3], 101))
open("cut.pcap", "wb").write(three[:-1])
open("cut_at", "w").write(f"{len(three) - 16 - len(raw[2])}\n")
open("cut_due", "w").writelines(f"{flow[1]}\n" for flow in flows[:2])
open("other.pcap", "wb").writelines(pcap([], 105))
open("left_out", "w").write(f"{len(packets) - len(flows)}\n")
values = {
    "source": lambda flow: flow[1],
    "destination": lambda flow: flow[3],
    "pair": lambda flow: f"{flow[1]} {flow[3]}",
    "five-tuple": lambda flow: " ".join(map(str, flow)),
}
for what, value in values.items():
    counts = Counter()
    with open(f"due_{what}", "w") as due:
        for at, flow in enumerate(flows, 1):
            counts[value(flow)] += 1
            if counts[value(flow)] == 24:
                print(at, value(flow), file=due)
END
}

# Draws packets, most of them damaged: what is read of them by place is what is read of any packet, and what dpkt reads,
# where that is here and can read them.
read_alike() {
    python3 - "$top/tools" <<'END'
import random, struct, sys
sys.path.insert(0, sys.argv[1])
from lib import network_packets as packets
try:
    import dpkt
except ImportError:
    dpkt = None

draw = random.Random(3)

def drawn(version, protocol):
    body = draw.randbytes(draw.choice([4, 8, 12, 20, 34]))
    if protocol == packets.TCP and len(body) > 12:
        body = body[:12] + bytes([draw.choice([0x50, 0x50, 0x60, 0x40, 0xF0])]) + body[13:]
    length = max(0, len(body) + draw.choice([0] * 5 + [-3, 5, -30]))
    if version == packets.VERSION_6:
        return struct.pack(">IHBB", 6 << 28 | draw.randrange(1 << 28), length, protocol, 64) + draw.randbytes(32) + body
    first, fragment = draw.choice([0x45] * 5 + [0x46, 0x44]), draw.choice([0, 0x4000, 0x2000, 7])
    head = struct.pack(">BBHHHBBH", first, 0, 20 + length, 1, fragment, 64, protocol, 0)
    return head + draw.randbytes(8) + body

def read_by_dpkt(version, data):
    try:
        ip = (dpkt.ip6.IP6 if version == packets.VERSION_6 else dpkt.ip.IP)(data)
    except dpkt.UnpackError:
        return None
    protocol = ip.p if hasattr(ip, "p") else ip.nxt
    return packets.Ends(protocol, ip.src, ip.dst, getattr(ip.data, "sport", None), getattr(ip.data, "dport", None))

usual = others = 0
for link, (at, version_at) in packets.PLACES.items():
    read = packets.reader_of(link)
    for _ in range(4000):
        version = draw.choice([packets.VERSION_4, packets.VERSION_6])
        protocol = draw.choice([6, 6, 17, 17, 1, 58, 44, 0, 50, 51])
        head = bytearray(draw.randbytes(at))
        head[version_at : version_at + 2] = draw.choice([version] * 6 + [b"\x08\x06", packets.VERSION_6])
        whole = bytes(head) + drawn(version, protocol)
        data = whole[: draw.choice([len(whole)] * 4 + [draw.randrange(len(whole))])]
        by_place, found = packets.usual_ends(data, at, version_at), packets.ends_behind(link, data)
        assert read(data) == found and by_place in (None, found), (link, data.hex())
        usual += by_place is not None
        if data[version_at : version_at + 2] != version or len(data) < at:
            assert found is None, (link, data.hex())
        elif dpkt and protocol in packets.PROTOCOLS:
            others += by_place is None
            assert found == read_by_dpkt(version, data[at:]), (link, data.hex())
assert usual > 1000 and (others > 1000 or not dpkt), (usual, others)
END
}

# refuses_packets NAME BYTES PLACE: the first so many bytes of the pcap are refused at that place.
refuses_packets() {
    head -c "$2" flows.pcap >bad
    gives "refuses $1" 1 'bad\nbefore\n' "keys: bad, byte $3\n" left_of_bad --packets source
}

# The sources that reach the reader of a stream of three packets of which the last one is cut.
cut_packets() {
    rm -f names
    keys pack --packets source --names names "$@" - <cut.pcap | keys unpack /dev/stdin 2>"$work/said" |
        sed 's/$/ 1/' | keys label --names names | cut -d' ' -f3-
    return "${PIPESTATUS[0]}"
}

check_network_packets() {
    local what told PATH=$PATH
    has python3 || return
    python_with dpkt
    gives 'reads packets by place as any other, and as dpkt does' 0 '' '' read_alike
    make_packets
    told="keys: flows.pcap: $(cat left_out) packets without a readable IP address are left out\n"
    for what in source destination pair five-tuple; do
        gives "reports packets by $what" 0 "$(cat due_$what)\n" "$told" \
            due_of --packets $what --from flows.pcap
    done
    gives 'reports packets without a link header' 0 "$(cat due_five-tuple)\n" '' \
        due_of --packets five-tuple <raw.pcap
    refuses_packets 'an empty pcap' 0 '0: no pcap or pcapng file'
    refuses_packets 'a pcap that ends in its header' 23 '0: no pcap or pcapng file'
    refuses_packets 'a pcap that ends in the header of a packet' 30 '24: the file ends inside a packet'
    refuses_packets 'a pcap that ends behind the header of a packet' 40 '24: the file ends inside a packet'
    refuses_packets 'a pcap that ends in a packet' 60 '24: the file ends inside a packet'
    told="byte $(cat cut_at): the file ends inside a packet\n"
    gives 'hands on the packets before a cut one' 1 "$(cat cut_due)\n" "keys: standard input, $told" cut_packets
    gives 'skips a cut packet' 0 "$(cat cut_due)\n" \
        "keys: standard input: 1 records were skipped, the first at $told" cut_packets --skip-bad
    cp other.pcap bad
    gives 'refuses packets of another link' 1 'bad\nbefore\n' \
        "keys: bad, byte 20: packets of the link type 105, which isn't known\n" left_of_bad --packets pair
}
