# Checks what the program answers, and the files that it leaves. tools/check reads it.

# --- ./lert

# What ./lert says of a trace that is cut.
cut='as the trace of a refused input or a cut copy does'

lert() { "$top/lert" "$@"; }
# Runs in the directory of the run before.
run_again() { lert run --threshold 3 --cone-bits 0 d "$1"; }
run() { rm -rf d && run_again "$1"; }
# The eight settings in their order, then the trace. With 3 3 2 4 2 0 32 8 a cone takes 71 keys.
run_long() {
    rm -rf d
    lert run --threshold "$1" --bins "$2" --ratio "$3" --base "$4" --levels "$5" --cone-bits "$6" \
        --room "$7" --packet "$8" d "$9"
}
# The default settings, the workers, and then the traces.
run_workers() {
    local workers=$1
    shift
    rm -rf d
    lert run d --workers "$workers" "$@"
}
run_highest() { rm -rf d && lert run --threshold 4294967295 --cone-bits 0 d "$1"; }
run_closed() { run "$1" >&-; }
run_full() { run "$1" >/dev/full; }
run_piped() { cat "$1" | run /dev/stdin; }

# Gives the trace three bytes at a time, so that the header and each key come in pieces.
run_in_pieces() {
    local at len
    len=$(wc -c <"$1")
    for ((at = 0; at < len; at += 3)); do
        dd if="$1" bs=1 skip=$at count=3 status=none
        sleep 0.02
    done | run /dev/stdin
}

run_fifo() {
    local status
    mkfifo fifo
    cat "$1" >fifo &
    run fifo
    status=$?
    # Its writer waits on where the pipe was never opened.
    kill $! 2>"$work/kill"
    return $status
}

# breaks RULE WORDS..: these words are refused by that rule.
breaks() { gives "the words ${*:2}" 1 '' "lert: usage rule $1\n" lert "${@:2}"; }

# breaks_long RULE SETTINGS..: a line with these settings is refused by that rule.
breaks_long() { gives "the settings ${*:2}" 1 '' "lert: usage rule $1\n" run_long "${@:2}" sevens; }

# breaks_workers RULE WORKERS TRACE..: a line with so many workers and these traces is refused by that rule.
breaks_workers() { gives "$2 workers, and $(($# - 2)) traces" 1 '' "lert: usage rule $1\n" run_workers "${@:2}"; }

check_words() {
    local many
    mapfile -t many < <(yes sevens | head -n 1025)
    breaks_workers 0 4
    breaks_workers 0 four sevens
    breaks_workers 12 0 sevens
    breaks_workers 12 65 sevens
    breaks_workers 12 0 "${many[@]}"
    breaks_workers 13 4 "${many[@]}"
    breaks 0
    breaks 0 runs d sevens
    breaks 0 run d
    breaks 0 run d sevens --bins
    breaks 0 run d sevens --bins=3 --bins 3
    breaks 0 run d sevens --seed 1
    breaks 0 run --threshold three d sevens
    breaks 0 run d -- sevens --
    breaks 0 run d ''
    breaks 0 run d sevens $'\xff'
    breaks 0 recover d sevens
    breaks 0 gen 7
    breaks 14 gen --events 4294967297
    breaks 14 drill --events 4194305
    breaks 1 run --threshold 0 --cone-bits 0 d sevens
    breaks 1 run --threshold 4294967296 --cone-bits 0 d sevens
    breaks_long 2 3 1 2 4 2 0 32 0
    breaks_long 6 3 3 2 4 2 9 32 8
    breaks_long 9 3 16 2 65536 2 4 32 8
    breaks_long 10 3 3 2 4 2 8 65537 8
    breaks_long 11 3 16 16 8 6 0 32 8
}

packets_left() { journal d/cone-000.journal; }

check_capacity() {
    local none='cone 0 events 71 reports 0 closed\ntotal events 71 reports 0\n'
    gives 'as many keys as a cone takes' 0 "$none" '' run_long 3 3 2 4 2 0 32 8 most
    gives 'a key more than a cone takes' 8 '' 'lert: cone 0 full at 64 plus 8\n' \
        run_long 3 3 2 4 2 0 32 8 too_many
    has python3 && gives 'the packets of a full cone' 0 "$(printf '0 0 8%.0s\\n' {1..8})" '' packets_left
    gives 'a key more than fits a room of 16 reports' 8 '' 'lert: cone 0 full at 48 plus 1\n' \
        run_long 3 3 2 4 2 0 16 8 forty_nine
    has python3 && gives 'its packets' 0 "$(printf '0 0 8%.0s\\n' {1..6})" '' packets_left
}

# The bytes of the files of the last run, in their order.
files_left() { cat d/cone-000.journal d/cone-000.log d/cone-000.frames; }
run_beside_file() { rm -rf d && : >d && run_again "$1"; }

# The log of a cone of three keys 7.
sevens_log='LERTL\1\0\0\1\57\0\0\0\2\3\0\0\0\0\0\0\0\40\0\0\0\0\0\0\0\1\0\0\0\0\0\0\0\0\0\1\0\0\0'
sevens_log+='\7\0\0\0\0\0\0\0\3\0\0\0\0\0\0\0\0'
# sevens_journal VERSION LENGTH ITEM: its journal, whose packet has this length and three of these items.
sevens_journal() {
    printf '%s' "LERTJ\\$1"'\0\0\3\0\0\0\40\0\0\0\4\0\0\0\10\0\0\0\3\2\2\0\0\0\0\0' \
        "\\1\\$2"'\0\0\0\0\0\0\0\0\0\0\0'"$3$3$3"'\0'
}

check_files() {
    local files
    files=$(sevens_journal 2 43 '\7\0\0\0\0\0\0\0\1')$sevens_log
    run_long 3 3 2 4 2 0 32 8 sevens >"$work/out"
    gives 'the files of a run' 0 "$files" '' files_left
    gives 'a run on the files of another' 6 '' 'lert: cone 0 not fresh\n' run_again sevens
    gives 'the files after it' 0 "$files" '' files_left
    gives 'a file as the directory' 2 '' 'lert: place fault\nlert: d: Not a directory\n' run_beside_file sevens
    rm -f d
}

# A directory in the place of a cone's file, a directory that takes no file, and one on a full disk.
run_over_folder() { rm -rf d && mkdir -p d/cone-000.frames && run_again "$1"; }
run_in() { lert run --threshold 3 --cone-bits 0 "$1" "$2"; }

# Runs in a directory of a file system that is smaller than the journal.
run_on_full_disk() {
    local status
    mkdir -p small && mount -t tmpfs -o size=64k none small || return 126
    run_in small/d "$1"
    status=$?
    umount small
    return $status
}

check_directories() {
    gives 'a folder in the place of a file' 2 '' 'lert: place fault\nlert: d/cone-000.frames is no file\n' \
        run_over_folder sevens
    has /proc/self && gives 'a directory that takes no file' 2 '' 'lert: place fault\n' run_in /proc/d sevens
    rm -rf d
    { printf 'LERT\1\0\0\0' && head -c 160000 /dev/zero; } >long
    mkdir -p small
    if ! mount -t tmpfs -o size=64k none small 2>"$work/err"; then
        echo 'skipped: no small file system can be made here'
        return
    fi
    umount small
    gives 'a full disk' 7 '' 'lert: cone 0 disk fault\nlert: the disk of small/d is full: 0 bytes are free\n' \
        run_on_full_disk long
}

check_bad_traces() {
    local other=", which doesn't begin as a trace does"
    gives 'a trace that is not there' 2 '' 'lert: place fault\nlert: nowhere: No such file or directory\n' run nowhere
    gives 'a folder as a trace' 3 '' 'lert: trace 0 fault\nlert: trace 0 is ., a directory\n' run .
    gives 'an empty file' 4 '' 'lert: trace 0 bad at 0\nlert: trace 0 is empty, which is empty\n' run empty
    gives 'a file that ends in the header' 4 '' \
        "lert: trace 0 bad at 7\nlert: trace 0 is cut_header, which ends inside its header, $cut\n" run cut_header
    gives 'a wrong header byte' 4 '' "lert: trace 0 bad at 3\nlert: trace 0 is other_header$other\n" run other_header
    gives 'a file that ends inside a key' 4 '' \
        "lert: trace 0 bad at 16\nlert: trace 0 is cut_key, which ends inside a key, $cut\n" run cut_key
    check_bad_weights
    gives 'two bad traces' 4 '' \
        "lert: trace 1 bad at 16\nlert: trace 1 is cut_key, which ends inside a key, $cut\n" \
        run_workers 4 sevens cut_key other_header
    gives 'a trace that fails beside a bad one' 3 '' 'lert: trace 2 fault\nlert: trace 2 is ., a directory\n' \
        run_workers 4 sevens cut_key .
}

check_reports() {
    local report='cone 0 events 3 reports 1 closed\n7 3\ntotal events 3 reports 1\n'
    local empty='cone 0 events 0 reports 0 closed\ntotal events 0 reports 0\n'
    local none='cone 0 events 3 reports 0 closed\ntotal events 3 reports 0\n'
    local cones='cone 0 events 6 reports 2 closed\n0 3\n18446744073709551615 6\n'
    cones+='cone 1 events 3 reports 1 closed\n1 3\ntotal events 9 reports 3\n'
    gives 'no key' 0 "$empty" '' run no_key
    gives 'a key three times' 0 "$report" '' run sevens
    gives 'a key three times, with settings' 0 "$report" '' run_long 3 3 2 4 2 0 32 8 sevens
    gives 'three keys of two cones' 0 "$cones" '' run_long 3 3 2 4 2 1 32 8 three_each
    gives 'the highest threshold' 0 "$none" '' run_highest sevens
    gives 'a trace from a pipe' 0 "$report" '' run_piped sevens
    gives 'a trace from a pipe in pieces' 0 "$report" '' run_in_pieces sevens
    has mkfifo && gives 'a trace from a named pipe' 0 "$report" '' run_fifo sevens
    gives 'a closed output' 11 '' 'lert: output fault\n' run_closed sevens
    has /dev/full && gives 'a full output' 11 '' 'lert: output fault\n' run_full sevens
}

# --- the journals of a million keys

# The keys of the journals in a directory, each behind its cone.
journaled() {
    local file
    for file in "$1"/cone-*.journal; do
        journal --keys "$file" | sed "s/^/$((10#$(basename "$file" .journal | cut -d- -f2))) /"
    done
}

totals() { tail -n 1 "$1" | cut -d' ' -f1-3; }
routed() { journal --route "$1" "$2" | sort -s -n -k 1,1; }

# Each of a million generated keys stands in the journal of its cone, in the order of the trace.
check_journals() {
    has python3 rustc || return
    rustc -O --edition 2021 -o generated_trace "$top/bench/generated_trace.rs" || return
    ./generated_trace 1 1000000 >million
    gives 'a generated trace' 0 '' '' cmp million <(lert gen --events 1000000)
    rm -rf d
    lert run d million >report
    gives 'a run of a million keys over 16 cones' 0 'total events 1000000\n' '' totals report
    routed 4 million >due
    gives 'a million keys in 16 journals' 0 '' '' cmp due <(journaled d)
    gives 'their reports' 0 '' '' cmp <(grep '^[0-9]' report) <(sound --reports closing d)
    gives 'their files, sound and closed' 0 '' '' cmp <(grep '^cone' report) <(sound d | sed 's/ n0 [0-9]*//')
    rm -rf d
}

# --- several traces

# What is reported, in one order, whatever the place.
reported() { grep '^[0-9]' "$1" | cut -d' ' -f1 | sort; }
woven() { journal --weave "$@" | awk '{ keys += $6 } END { print keys }'; }

# A million keys in four traces: whatever the workers, each journal is a weave of its cone's keys, the files are sound,
# the same keys are reported, and the reports are those of the journals.
check_workers() {
    local report='cone 0 events 6 reports 1 closed\n7 3\ntotal events 6 reports 1\n'
    local workers part four=(quarter0 quarter1 quarter2 quarter3)
    gives 'one trace twice' 0 "$report" '' run_twice
    has python3 rustc || return
    for part in 0 1 2 3; do
        ./generated_trace $((1 + 250000 * part)) 250000 >"${four[$part]}"
    done
    for workers in 1 2 4 8; do
        run_workers $workers "${four[@]}" >"report$workers"
        gives "four traces by $workers workers" 0 'total events 1000000\n' '' totals "report$workers"
        gives 'their journals are weaves' 0 '1000000\n' '' woven $workers d "${four[@]}"
        gives 'the same keys are reported' 0 '' '' cmp <(reported report1) <(reported "report$workers")
        gives 'their reports' 0 '' '' cmp <(grep '^[0-9]' "report$workers") <(sound --reports closing d)
        gives 'their files, sound and closed' 0 '' '' \
            cmp <(grep '^cone' "report$workers") <(sound d | sed 's/ n0 [0-9]*//')
    done
    rm -rf d
    gives 'drawn runs of several workers' 0 '' '' passes "$top/tools/tests/crews" "$("$top/tools/lib/program")"
    gives 'drawn runs with weights' 0 '' '' passes "$top/tools/tests/crews" "$("$top/tools/lib/program")" --weights
}

run_twice() {
    rm -rf d
    lert run --threshold 3 --bins 3 --ratio 2 --base 4 --levels 2 --cone-bits 0 --room 32 --packet 8 \
        --workers 2 d sevens sevens
}

# --- recovery

# The eight settings in their order, then the directory. The program itself: ./lert looks at the settings before.
recover() {
    "$program" recover --threshold "$1" --bins "$2" --ratio "$3" --base "$4" --levels "$5" --cone-bits "$6" \
        --room "$7" --packet "$8" "$9"
}
recover_run() { recover 3 3 2 4 2 0 32 8 d; }
recover_full() { recover_run >/dev/full; }
breaks_recover() { gives "recovery with the settings ${*:2}" 1 '' "lert: usage rule $1\n" recover "${@:2}" d; }

check_recovered() {
    local report='cone 0 events 3 reports 1 closed\n7 3\ntotal events 3 reports 1\n'
    local none='cone 0 events 64 reports 0 open\ntotal events 64 reports 0\n'
    breaks_recover 1 0 3 2 4 2 0 32 8
    breaks_recover 2 3 1 2 4 2 0 32 8
    rm -rf d
    gives 'recovery of no directory' 9 '' 'lert: cone 0 file 0 malformed at 0\n' recover_run
    run_long 3 3 2 4 2 0 32 8 sevens >"$work/out"
    gives 'recovery of a whole run' 0 "$report" '' recover_run
    has /dev/full && gives 'recovery with a full output' 11 '' 'lert: output fault\n' recover_full
    gives 'recovery after it' 0 "$report" '' recover_run
    printf "$(sevens_journal 1 40 '\7\0\0\0\0\0\0\0')" >d/cone-000.journal
    gives 'recovery of files of version 1' 0 "$report" '' recover_run
    gives 'recovery with another threshold' 10 '' 'lert: cone 0 has other settings\n' recover 4 3 2 4 2 0 32 8 d
    printf M | dd of=d/cone-000.journal conv=notrunc status=none
    gives 'recovery of another journal' 9 '' 'lert: cone 0 file 0 malformed at 0\n' recover_run
    : >d/cone-000.journal && : >d/cone-000.log && : >d/cone-000.frames
    gives 'recovery of empty files' 9 '' 'lert: cone 0 file 0 malformed at 0\n' recover_run
    run_long 3 3 2 4 2 0 32 8 too_many 2>"$work/err"
    gives 'recovery of a full cone' 0 "$none" '' recover_run
    rm -rf d && : >d
    gives 'recovery of a file' 2 '' 'lert: place fault\n' recover_run
    rm -f d
}

# The program itself: ./lert would look for it at each start.
check_recovery() {
    local program
    program=$("$top/tools/lib/program")
    rm -rf d
    check_recovered
    has python3 || return
    check_settings
    gives 'recovery of damaged files' 0 '' '' passes "$top/tools/tests/damage" "$program" --changes 500 --seconds 20
    gives 'recovery of killed runs' 0 '' '' passes "$top/tools/tests/kill" "$program" --times 5 --keys 200000
}

# --- examples

hosts_of_bytes() { "$top/examples/bytes" "$@" | sed 's/^[0-9]* //'; }

# Two hosts, of which one sends a byte less than a megabyte.
hosts_of_capture() {
    python3 -c 'import struct, sys
sys.stdout.buffer.write(struct.pack("<IHHiIII", 0xA1B2C3D4, 2, 4, 0, 0, 20, 101))
for host, length in ((7, 999_999), (8, 1_000_000)):
    head = struct.pack(">BBHHHBBH", 0x45, 0, 20, 0, 0, 64, 17, 0) + bytes([10, 0, 0, host, 10, 0, 0, 9])
    sys.stdout.buffer.write(struct.pack("<IIII", 0, 0, 20, length) + head)' >megabyte
    hosts_of_bytes megabyte
}

without_hashes() { "$top/examples/words" "$1" | cut -d' ' -f2-; }
example_words() { "$top/examples/words" "$@" | awk 'NF == 3 { print $3 }' | sort; }

check_example() {
    local report='0 events 48 reports 1 closed\n48 so\nevents 48 reports 1\n'
    has python3 || return
    for _ in {1..23}; do echo 'So it'; done >text
    echo 'goes, so.' >>text
    gives 'the example' 0 "$report" '' without_hashes text
    gives 'the example over two texts' 0 'it\nso\n' '' example_words text text
    # A packet of 1,500 bytes is six items, and one of 9,000 is 36.
    report="cone 0 events 9920 reports 2 closed\n$((666 * 8 + 4)) 10.0.0.1\n$((5600 + 111 * 36 + 4)) 10.0.0.3\n"
    gives 'the example of bytes' 0 "${report}total events 9920 reports 2\n" '' hosts_of_bytes
    # 999,999 bytes are 3,922 items, and so are 1,000,000.
    report='cone 0 events 7844 reports 1 closed\n7844 10.0.0.8\ntotal events 7844 reports 1\n'
    gives 'the example over a capture' 0 "$report" '' hosts_of_capture
}

# --- gen and drill

generated() { lert gen "$@" | od -An -v -tx1 | tr -d ' \n'; }
generated_on_full() { lert gen --events 100000 >/dev/full; }
drill_on_full() { lert drill >/dev/full; }
drilled() { "$top/tools/tests/drilled" "$@"; }
few_drilled() { lert drill --seed 1 --events 100 --threshold 101 --cone-bits 0; }

check_generated() {
    local none='cone 0 events 100 reports 0 keys 0000000000000000\ntotal events 100 reports 0\n'
    gives 'a drill in which no key comes often enough' 0 "$none" '' few_drilled
    gives 'a drill of a full cone' 8 '' '' without_fault lert drill --room 1 --threshold 1
    has /dev/full && gives 'generated keys into a full output' 11 '' 'lert: output fault\n' generated_on_full
    has /dev/full && gives 'a drill into a full output' 11 '' 'lert: output fault\n' drill_on_full
    has od && gives 'a generated key' 0 '4c455254010000006401000000000000' '' generated --seed 0 --events 1
    has python3 || return
    drilled 1 1000000 >due
    gives 'a drill of a million keys' 0 '' '' cmp due <(lert drill --seed 1 --events 1000000)
    gives 'the same by one worker' 0 '' '' cmp due <(lert drill --events=1000000 --workers=1)
    gives 'drawn lines' 0 '' '' \
        passes "$top/tools/tests/command_lines" "$("$top/tools/lib/program")" --lines 300 --seconds 20
}

# Leaves out where a cone is full: that is up to the workers.
without_fault() { "$@" 2>"$work/fault"; }

# Builds the program first, where it isn't built: 126 says that it can't be.
check_program() {
    lert >"$work/out" 2>&1
    if [ $? -eq 126 ]; then
        failed=$((failed + 1))
        echo 'FAILED: the program is not built'
        tail -n 5 "$work/out"
        return
    fi
    check_words
    check_help
    check_bad_traces
    check_capacity
    check_files
    check_directories
    check_journals
    check_workers
    check_generated
    check_reports
    check_weighed_runs
    check_recovery
    check_example
    check_look
}

