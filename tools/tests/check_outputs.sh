# Checks that tools/keys and tools/picture harm no file, and what becomes of bad records. tools/check reads it.

# --- outputs of tools/keys

# kept_by WORDS..: packing is refused by these words, and `mine` stays as it was, with nothing beside it.
kept_by() (
    rm -rf kept && mkdir kept && cd kept || return
    seq 3 >mine && ln -s mine to_mine && ln mine also_mine && keys pack own <mine
    keys pack "$@" <mine
    status=$?
    seq 3 | cmp - mine && ls
    return $status
)

# keeps NAME LINE WORDS..: what `kept_by` does, with this line.
keeps() { gives "keeps $1" 2 'also_mine\nmine\nown\nto_mine\n' "keys: $2\n" kept_by "${@:3}"; }

# A trace is written behind a link, which stays, and keeps the mode of the one before.
behind_links() {
    rm -rf kept && mkdir kept && echo 7 | keys pack kept/trace && chmod 640 kept/trace || return
    ln -s trace kept/link && ln -s new kept/dangling && echo 8 | keys pack kept/link && echo 9 | keys pack kept/dangling
    keys unpack kept/trace && keys unpack kept/new && stat -c '%a %F %n' kept/*
}

# What stands where a refused packing would have added names: a link to none, and a file of another's tables.
left_by_names() {
    rm -rf kept && mkdir kept && ln -s new kept/names
    echo | keys pack --hash --names kept/names --json who kept/trace
    python3 -c 'import sqlite3
with sqlite3.connect("kept/others") as file:
    file.execute("CREATE TABLE cards (number INTEGER)")'
    cp kept/others others && echo | keys pack --hash --names kept/others kept/trace
    cmp kept/others others && ls kept
}

# What two packings into one device leave of it.
into_device() {
    echo 7 | keys pack device && echo 7 | keys pack device && stat -c '%F %t %T' device
}

# Into standard output by a path, behind what stands there. The path is that of a link of ours, as /dev/stdout is one.
into_output() {
    rm -f output && ln -s /proc/self/fd/1 output && echo first >seen && echo 7 | keys pack output >>seen || return
    head -n 1 seen && tail -c 16 seen | keys unpack /dev/stdin && stat -c %F output
}

# A socket at a path takes a trace.
into_socket() {
    python3 - "$top/tools/keys" <<'END'
import socket, subprocess, sys
with socket.socket(socket.AF_UNIX) as place:
    place.bind("socket")
    place.listen()
    place.settimeout(60)
    packing = subprocess.Popen([sys.argv[1], "pack", "socket"], stdin=subprocess.PIPE)
    packing.communicate(b"7\n")
    if packing.returncode == 0:
        with place.accept()[0] as taken, taken.makefile("rb") as trace:
            print(trace.read().hex())
    sys.exit(packing.returncode)
END
}

# A line, and then a signal to who writes the trace that stands beside its place.
line_and_signal() {
    local tries part
    echo 8
    for tries in {1..300}; do
        part=$(ls kept | grep 'part$') && break
        sleep 0.1
    done
    part=${part%.part}
    kill -s "$1" "${part##*.}"
    for tries in {1..300}; do
        kill -0 "${part##*.}" || break
        sleep 0.1
    done
}

# stopped SIGNAL: what a packing leaves that this signal ends.
stopped() {
    local status
    rm -rf kept && mkdir kept && echo 7 | keys pack kept/trace || return
    # The shell says how it ended. Whoever runs the checks may ignore the signal.
    { env --default-signal="$1" "$top/tools/keys" pack --hash --names kept/names kept/trace < <(line_and_signal "$1"); } 2>"$work/said"
    status=$?
    keys unpack kept/trace && ls kept
    return $status
}

# What a packing leaves that has no room.
without_room() (
    rm -rf kept && mkdir kept && echo 7 | keys pack kept/trace || return
    ulimit -f 1
    seq 9000 | keys pack --hash kept/trace
    status=$?
    keys unpack kept/trace && ls kept
    return $status
)

check_outputs() {
    local same='is not written, since it is the same file as' other='since what stands there is no trace'
    local told='keys: standard input, line 1: no JSON object\n' signal number
    local modes='777 symbolic link kept/dangling\n777 symbolic link kept/link\n'
    has python3 || return
    keeps 'the input' "mine $same mine" --from mine mine
    keeps 'standard input' "mine $same standard input" mine
    keeps 'the input behind a link' "to_mine $same standard input" to_mine
    keeps 'another name of the input' "also_mine $same mine" --from mine also_mine
    keeps 'what is no trace' "mine is not replaced, $other" --from own mine
    keeps 'what is no trace behind a link' "to_mine is not replaced, $other" --from own to_mine
    keeps 'the input from names' "mine $same standard input" --hash --names mine trace
    keeps 'names from the trace' "names $same names" --hash --names names names
    modes+='644 regular file kept/new\n640 regular file kept/trace\n'
    gives 'writes behind links' 0 "8\n9\n$modes" '' behind_links
    gives 'keeps what is no file of names' 0 'names\nothers\n' \
        "${told}keys: kept/others, byte 0: no file of names: there are other tables\n" left_by_names
    gives 'writes into standard output by its path' 0 'first\n7\nsymbolic link\n' '' into_output
    gives 'writes into a socket' 0 '4c455254010000000700000000000000\n' '' into_socket
    gives 'tells that a trace has no room' 2 '7\ntrace\n' 'keys: [Errno 27] File too large\n' without_room
    while read -r signal number; do
        gives "leaves nothing behind SIG$signal" $((128 + number)) '7\ntrace\n' '' stopped "$signal"
    done <<<$'HUP 1\nINT 2\nTERM 15'
    if mknod device c 1 3 2>"$work/said"; then
        gives 'writes into a device' 0 'character special file 1 3\n' '' into_device
        gives 'adds no names to a device' 2 '' 'keys: device takes no names, since it is no regular file\n' \
            keys pack --hash --names device packed </dev/null
    else
        echo "skipped: no device can be made here"
    fi
}

# --- outputs of tools/picture

# What a page leaves of a page, of a file behind a link, and of a device, as which a picture is written.
drawn_into() {
    rm -f to_page page && ln -s page to_page && picture --out to_page d && picture --out to_page d || return
    head -n 4 page | tail -n 1 && stat -c %F to_page && picture --out page_device d && stat -c %F page_device
}

# What a page that is refused leaves of a file of one's own.
spared() {
    picture --out "$@"
    echo $?
    cmp "$1" d/picture.html
}

check_spared() {
    local same='is not written, since it is the same file as'
    rm -rf d && run sevens >"$work/out"
    echo mine >mine && cp mine d/picture.html
    gives 'draws over no other file' 0 '2\n' \
        'picture: mine is not replaced, since what stands there is no page of this tool\n' spared mine d
    gives 'draws over no other picture.html' 2 '' \
        'picture: d/picture.html is not replaced, since what stands there is no page of this tool\n' picture d
    : >d/cone-000.frames && ln -sf d/cone-000.frames frames
    gives 'draws over no file of the run' 2 '' "picture: frames $same d/cone-000.frames\n" picture --out frames d
    gives 'draws over no names' 2 '' "picture: mine $same mine\n" picture --names mine --out mine d
}

# --- records that are bad

# streamed WORDS..: the keys that reach the reader of a stream of `bad` that is packed by these words.
streamed() {
    local status
    keys pack "$@" - <bad | keys unpack /dev/stdin 2>"$work/said"
    status=${PIPESTATUS[0]}
    return $status
}

# skips NAME BAD KEYS FORMAT WORDS..: of a file with this text, `bad`, a stream that is packed by these words ends at
# the first bad record, and has handed on the first of these keys; with --skip-bad it has all of them. BAD is the number
# of such records and the first.
skips() {
    local before
    printf "$4" >bad
    before=$(printf "$3" | head -n 1)
    gives "hands on what comes before $1" 1 "$before\n" "keys: standard input, ${2#* }\n" streamed "${@:5}"
    gives "skips $1" 0 "$3" "keys: standard input: ${2%% *} records were skipped, the first at ${2#* }\n" \
        streamed --skip-bad "${@:5}"
}

# A run over a stream with a bad line that comes behind a good one and before two others.
skipping_run() {
    rm -rf d
    printf '7\n7\nx\n7\n' | keys pack --skip-bad - | lert run --threshold 3 --cone-bits 0 d /dev/stdin
}

check_skipping() {
    local number='no decimal number below 2^64' long
    has python3 || return
    skips 'lines that are no numbers' "2 line 2: $number" '7\n8\n9\n' '7\nx\n8\n-1\n9\n'
    skips 'a row without the column' '1 line 3: the row has no column b' '7\n8\n' 'a,b\n1,7\n1\n1,8\n' --csv b
    skips 'a row of a CSV that is none' "1 line 3: no CSV: ',' expected after '\"'" '7\n8\n' 'b\n7\n"x"y\n8\n' --csv b
    skips 'a quote that stays open' '1 line 4: no CSV: unexpected end of data' '7\n8\n' 'b\n7\n"x\n8\n' --csv b
    skips 'lines that are no JSON' '2 line 2: no JSON object' '7\n8\n' '{"a":7}\n{\n[7]\n{"a":"8"}\n' --json a
    skips 'a line without the field' '1 line 2: no field a' '7\n8\n' '{"a":7}\n{"b":7}\n{"a":"8"}\n' --json a
    long=$(yes x | head -n 1100000 | tr -d '\n')
    skips 'a line that is too long' "2 byte 2: a line of more than 1048576 bytes" '7\n8\n' "7\n$long\n8\nx\n"
    printf '7\nx\n' >bad
    gives 'packs a file but its bad lines' 0 '7\n' "keys: bad: 1 records were skipped, the first at line 2: $number\n" \
        eval 'keys pack --skip-bad --from bad packed && keys unpack packed'
    gives 'tells that nothing was skipped' 0 '' 'keys: standard input: 0 records were skipped\n' \
        keys pack --skip-bad packed < <(echo 7)
    gives 'a run over a stream with a bad line' 0 \
        'cone 0 events 3 reports 1 closed\n7 3\ntotal events 3 reports 1\n' \
        "keys: standard input: 1 records were skipped, the first at line 3: $number\n" skipping_run
}
