# Checks the commands of README.md, docs/USE.md and docs/LOOK.md that stand in a sentence, a table, or a block without
# what they print: each is here, and is run here or by the check that is named. tools/check reads it.

# The commands of the pages that have words, but those of blocks with what they print, and the blocks without.
page_commands() {
    python3 - "$top" <<'END'
import re, sys
BLOCK = re.compile(r"^```\w*\n(.*?)^```\n", re.DOTALL | re.MULTILINE)
COMMAND = re.compile(r"(?:\S+ )*?(?:tools/|\./lert|examples/|-- |queue-reader)\S* \S")
for page in ("README.md", "docs/USE.md", "docs/LOOK.md"):
    text = open(f"{sys.argv[1]}/{page}").read()
    for block in BLOCK.findall(text):
        if "\n$ " not in f"\n{block}" and "tools/" in block:
            print(page, block.split(" | ")[0])
    codes = (" ".join(code.split()) for code in re.findall(r"`([^`]+)`", BLOCK.sub("", text)))
    for code in dict.fromkeys(codes):
        if COMMAND.match(code):
            print(page, code)
END
}

# block_of PAGE WORD: the commands of the block that has the word.
block_of() {
    python3 - "$top/docs/$1" "$2" <<'END'
import re, sys
text = open(sys.argv[1]).read()
print(next(one for one in re.findall(r"^```\n(.*?)^```\n", text, re.DOTALL | re.MULTILINE) if sys.argv[2] in one), end="")
END
}

# A folder with the commands of a clone, and what stands for those of other programs.
make_page() {
    rm -rf page && mkdir -p page/bin && ln -s "$top/tools" "$top/lert" page/ || return
    printf '#!/bin/sh\ncat packets.pcap\n' >page/bin/tcpdump
    printf '#!/bin/sh\necho $$ >tail_id\nexec %s "$@"\n' "$(command -v tail)" >page/bin/tail
    printf '#!/bin/sh\n[ "$*" = "-f -o cat" ] && printf "%%s\\n" no such no && sleep 60\n' >page/bin/journalctl
    printf '#!/bin/sh\n[ "$*" = "-l -T fields -e ip.src" ] && printf "%%s\\n" 7.0.0.7 9.0.0.9 7.0.0.7 && sleep 60\n' \
        >page/bin/tshark
    chmod +x page/bin/*
}

# two_terminals PAGE WORD: runs a block whose last line is for another terminal.
two_terminals() {
    local first second
    first=$(block_of "$@" | sed '$d') second=$(block_of "$@" | tail -n 1)
    timeout 300 bash -c "$second --wait 200" >seen &
    PATH=$PWD/bin:$PATH bash -c "$first"
    wait $!
    sed 's/^0 [0-9]* /seen /; /^[ct]/d' seen
}

# grows_to SIZE FILE: waits until a file has so many bytes, for at most two minutes.
grows_to() {
    local tries
    for tries in {1..1200}; do
        [ "$(stat -c %s "$2" 2>/dev/null || echo 0)" -lt "$1" ] || break
        sleep 0.1
    done
}

# Writes a log once it is read, and ends who reads it once nine packets of it are on the disk.
write_log() {
    grows_to 32 visits/cone-000.journal
    yes '10.0.0.7 - - GET' | head -n 150 >>access.log
    grows_to $((32 + 9 * (5 + 8 + 16 * 9))) visits/cone-000.journal
    sleep 2
    command kill "$(cat tail_id)"
}

# The addresses of a log that grows.
page_of_log() {
    make_page && cd page && echo old >access.log || return
    write_log &
    two_terminals LOOK.md access.log | sed 's/^[0-9]* /run /'
    ./lert recover visits | sed -n 's/^[0-9]* /recovered /p'
    cd ..
}

# 1,500 packets of one sender, as a pcap or, by its name, a pcapng.
make_senders() {
    python3 - "$1" <<'END'
import struct, sys
packet = bytes(12) + bytes.fromhex("08004500002800010000400600000a0000070a000001") + bytes(22)
def block(kind, body):
    length = struct.pack("<I", 12 + len(body))
    return struct.pack("<I", kind) + length + body + length
with open(sys.argv[1], "wb") as file:
    if sys.argv[1].endswith("ng"):
        file.write(block(0x0A0D0D0A, struct.pack("<IHHq", 0x1A2B3C4D, 1, 0, -1)))
        file.write(block(1, struct.pack("<HHI", 1, 0, 0)))
        file.write(block(6, struct.pack("<IIIII", 0, 0, 0, len(packet), len(packet)) + packet) * 1500)
    else:
        file.write(struct.pack("<IHHiIII", 0xA1B2C3D4, 2, 4, 0, 0, 262144, 1))
        file.write((struct.pack("<IIII", 0, 0, len(packet), len(packet)) + packet) * 1500)
END
}

# Those of packets.
page_of_packets() {
    make_page && cd page && make_senders packets.pcap && two_terminals LOOK.md tcpdump | sed 's/^[0-9]* /run /'
    cd ..
}

# A CSV that grows, into two traces with the same names.
page_of_csv() {
    make_page && cd page && printf '%s\n' time,card 1,4711 2,0815 3,4711 >payments.csv || return
    timeout 2 tail -n +1 -F payments.csv | tools/keys pack --csv card --hash --names cards - >payments
    tools/keys pack --csv card --hash --names cards --from payments.csv more
    ./lert run heavy payments more --threshold 4 | tools/keys label --names cards | sed -n 's/^[0-9]\{2,\} [0-9]* //p'
    cd ..
}

# served WORD..: what a service shows of a source that goes on, until it is seen, and how the service ends.
served() {
    local service
    : >shown
    PATH=$PWD/bin:$PATH tools/live --threshold 2 "$@" >shown 2>said &
    service=$!
    for _ in {1..300}; do [ -s shown ] && break || sleep 0.1; done
    command kill -TERM $service && wait $service
    echo "$? $(cut -d' ' -f4- shown)"
}

page_of_services() {
    make_page && cd page && printf '%s - GET\n' 10.0.0.9 10.0.0.7 10.0.0.7 >access.log || return
    served --follow access.log --field 1 one
    served two -- journalctl -f -o cat
    served three -- tshark -l -T fields -e ip.src
    cd ..
}

# A capture that was saved.
page_of_capture() {
    make_page && cd page && make_senders capture.pcapng || return
    tools/keys pack --packets source --names senders --from capture.pcapng packets &&
        ./lert run --threshold 1500 --cone-bits 0 minute packets | tools/keys label --names senders | cut -d' ' -f2-
    cd ..
}

# The picture of docs/LOOK.md, of the words of the sources that git knows: its kind, and how many cones the run has.
page_of_picture() {
    make_page && cd page && mkdir docs && ln -s "$top/crates" . || return
    printf '#!/bin/sh\ncd "%s" && PATH="%s" exec git "$@"\n' "$top" "$PATH" >bin/git && chmod +x bin/git
    PATH=$PWD/bin:$PATH bash -c "$(block_of LOOK.md ls-files)" | grep -c '^cone'
    head -c 4 docs/look.png | tail -c 3
    cd ..
}

# Where each command of the pages is run that stands in no block with what it prints: behind # the check.
commands_due() {
    cat <<'END'
README.md ./lert run DIR TRACE.. # the blocks
docs/USE.md tools/keys pack # the blocks
docs/USE.md ./lert recover # the blocks of README.md
docs/USE.md tools/fit --amount MEAN # check_fit
docs/USE.md tools/watch --progress # the blocks of docs/LOOK.md
docs/USE.md ./lert recover DIR # the blocks of README.md
docs/USE.md tools/report DIR # the blocks
docs/USE.md tools/live DIR # the blocks
docs/USE.md tools/live --follow access.log --field 1 DIR # page_of_services
docs/USE.md tools/live DIR -- journalctl -f -o cat # page_of_services
docs/USE.md -- tshark -l -T fields -e ip.src # page_of_services
docs/USE.md tools/live --pipe FIFO DIR # live_killed
docs/USE.md queue-reader \| tools/live DIR # live_full
docs/USE.md tools/report DIR/run-* # the blocks
docs/USE.md tools/build/package lert.deb # check_package
docs/USE.md tools/sound DIR # check_sound
docs/USE.md tools/report --format options DIR # check_report
docs/USE.md tools/fit --memory # check_fit
docs/LOOK.md timeout --foreground 3600 tail -F access.log # page_of_log
docs/LOOK.md timeout --foreground 60 tcpdump -i any -U -w - ip or ip6 # page_of_packets
docs/LOOK.md git ls-files 'crates/*.rt' 'crates/*.antt' # page_of_picture
docs/LOOK.md tools/keys pack --packets source --names senders --from capture.pcapng packets # page_of_capture
docs/LOOK.md ./lert run heavy payments more # page_of_csv
docs/LOOK.md tail -n +1 -F payments.csv | tools/keys pack --csv card .. # page_of_csv
docs/LOOK.md ./lert recover visits # page_of_log
docs/LOOK.md tools/watch --progress DIR TRACE.. # the blocks
docs/LOOK.md tools/picture --names cards heavy # check_picture
docs/LOOK.md tools/watch --names cards heavy # the blocks
END
}

check_pages() {
    local PATH=$PATH run='cone 0 events 151 reports 1 closed\nrun 101\ntotal events 151 reports 1\n'
    run+='seen 101 10.0.0.7\nrecovered 101\n'
    has python3 timeout stdbuf || return
    gives 'each command of the pages is run' 0 '' '' diff <(commands_due | sed 's/ # .*//') <(page_commands)
    gives 'the addresses of a log, as docs/LOOK.md has it' 0 "$run" '' page_of_log
    run='cone 0 events 1500 reports 1 closed\nrun 1000\ntotal events 1500 reports 1\nseen 1000 10.0.0.7\n'
    gives 'the senders of packets, as docs/LOOK.md has it' 0 "$run" '' page_of_packets
    run='events 1500 reports 1 closed\n1500 10.0.0.7\nevents 1500 reports 1\n'
    gives 'the senders of a capture, as docs/LOOK.md has it' 0 "$run" '' eval "page_of_capture | sed 's/^0 //'"
    gives 'a CSV that grows, as docs/LOOK.md has it' 0 '4711\n' '' page_of_csv
    gives 'services, as docs/USE.md has them' 0 '0 3 10.0.0.7\n0 3 no\n0 3 7.0.0.7\n' '' page_of_services
    python_with matplotlib && has git "$top/.git" &&
        gives 'the picture of docs/LOOK.md' 0 '16\nPNG' '' page_of_picture
    rm -rf page
}
