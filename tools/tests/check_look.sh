# Checks the way from records of any kind to labelled reports, to a run that is watched, and to its picture.
# tools/check reads it.

# A watch that doesn't end behind its run is ended.
watch() { timeout 120 "$top/tools/watch" "$@"; }

# --- records

# Two thousand visits by few, as lines, a CSV and JSON lines, and what a plain count of them makes due: the position of
# each name's 24th visit, and the name as it is printed.
make_visits() {
    python3 - <<'END'
import csv, json, random
from collections import Counter

names = ["ann", 'Bo "B" Li', "Li, Bo", "two\nlines", "", " a b ", "\u00e4", "x" * 300, "'", "7", "$(x)", "a\\b"]
drawn = random.Random(1).choices([*names, *(f"rare {n}" for n in range(99))], [20] * 12 + [1] * 99, k=2000)
with open("visits.csv", "w", newline="") as file:
    csv.writer(file).writerows([["at", "who", "what"], *([n, name, 'a,"b"\nc'] for n, name in enumerate(drawn, 1))])
with open("visits.tsv", "w", newline="") as file:
    csv.writer(file, delimiter="\t").writerows([n, name] for n, name in enumerate(drawn, 1))
with open("visits.json", "w") as file:
    file.writelines(json.dumps({"what": [n], "who": name, "at": n}) + "\n" for n, name in enumerate(drawn, 1))
counts = Counter()
with open("due", "w") as file:
    for at, name in enumerate(drawn, 1):
        counts[name] += 1
        if counts[name] == 24:
            print(at, name.replace("\n", "\\x0a"), file=file)
END
}

# due_of WORDS..: what a run reports of records that are packed by these words, by position and name.
due_of() {
    rm -rf d names && keys pack "$@" --hash --names names packed && lert run --cone-bits 0 d packed >report &&
        keys label --names names <report | sed -n 's/^[0-9][0-9]* //p'
}

# refuses NAME PLACE FORMAT WORDS..: of a file with this text, `bad`, packing by these words is refused at this
# place, and leaves no trace and no names.
refuses() {
    printf "$3" >bad
    gives "refuses $1" 1 'bad\nbefore\n' "keys: bad, $2\n" left_of_bad "${@:4}"
}

left_of_bad() {
    local status
    rm -rf kept && mkdir kept && cp bad kept/ && cd kept && : >before
    keys pack "$@" --from bad --names names --hash trace
    status=$?
    ls && cd .. || return
    return $status
}

check_records() {
    has python3 || return
    make_visits
    gives 'reports names of a CSV' 0 '' '' cmp due <(due_of --csv who --from visits.csv)
    gives 'reports names of a column by its number' 0 '' '' \
        cmp due <(due_of --csv 2 --delimiter '\t' --from visits.tsv)
    gives 'reports names of JSON lines' 0 '' '' cmp due <(due_of --json who <visits.json)
    gives 'reports names of a packed CSV' 0 '' '' cmp due <(gzip <visits.csv | due_of --csv who)
    { gzip <visits.csv && gzip </dev/null && echo 2001,7,x | gzip; } >visits.gz
    keys pack --csv at --from visits.gz packed
    gives 'packs numbers of a CSV that is packed in parts' 0 '' '' cmp <(seq 2001) <(keys unpack packed)
    seq 50 | sed 's/.*/ a \t& b/' | keys pack --field 2 packed
    gives 'packs numbers of words' 0 '' '' cmp <(seq 50) <(keys unpack packed)
    keys pack --json at --from visits.json packed
    gives 'packs numbers of JSON lines' 0 '' '' cmp <(seq 2000) <(keys unpack packed)
    keys pack --csv at packed <visits.csv
    gives 'packs numbers of a CSV' 0 '' '' cmp <(seq 2000) <(keys unpack packed)
    refuses 'a CSV without the column' 'line 1: no column is named who of at|what' 'at,what\n1,2\n' --csv who
    refuses 'a CSV with two such columns' 'line 1: more than one column is named a of a|a' 'a,a\n1,2\n' --csv a
    refuses 'an empty CSV by name' 'line 1: no column is named a of ' '' --csv a
    refuses 'a row without the column' 'line 4: the row has no column b' 'a,b\n1,2\n\n1\n' --csv b
    refuses 'a row without the column of a number' 'line 1: the row has no column 3' 'a,b\n' --csv 3
    refuses 'a quote that stays open' 'line 3: no CSV: unexpected end of data' 'a\n"1\n2' --csv a
    refuses 'a line that is no JSON' 'line 2: no JSON object' '{"a":"b"}\n{"a":"b"\n' --json a
    refuses 'JSON with more behind it' 'line 1: no JSON object' '{"a":"b"},\n' --json a
    refuses 'JSON that is no object' 'line 1: no JSON object' '["a"]\n' --json a
    refuses 'JSON without the field' 'line 2: no field a' '{"a":"b"}\n{"b":"a"}\n' --json a
    refuses 'a field of another kind' 'line 1: the field a is no text and no number' '{"a":true}\n' --json a
    refuses 'a line without the word' 'line 2: the line has no word 3' '1 2 3\n 1 2 \n' --field 3
    gzip <visits.json | head -c 15 >cut.gz
    gives 'refuses a gzip file that is cut' 1 '' \
        'keys: cut.gz, byte 0 of what is unpacked: a broken gzip file: it ends before its end\n' \
        keys pack --hash --from cut.gz packed
    yes | tr -d '\n' | head -c 1300000 >bad
    gives 'refuses a line without end' 1 'bad\nbefore\n' \
        'keys: bad, byte 0: a line of more than 1048576 bytes\n' left_of_bad
    gives 'refuses no file' 2 '' "keys: [Errno 2] No such file or directory: 'nowhere'\n" \
        keys pack --from nowhere packed
}

# --- names

label_visits() { printf 'cone 0 events 1 reports 1 closed\n7 1\n' | keys label --names "$1"; }

# A run whose names are new is labelled, though there are none when it begins.
late_names() (
    set -o pipefail
    rm -rf d names
    { sleep 1 && printf 'the\nthe\nthe\n'; } | keys pack --hash --names names - |
        lert run --threshold 3 --cone-bits 0 d /dev/stdin | keys label --names names
)

# A run whose report is labelled by a file that isn't there, and its status.
unnamed_run() {
    run_of_three | keys label --names nowhere
    echo "${PIPESTATUS[@]}"
}

run_of_three() { rm -rf d && lert run --threshold 3 --cone-bits 0 d sevens; }

# The names of before and those of a refused packing are the same.
names_kept() {
    local status
    cp names names_before
    keys pack --hash --names names --json who packed <"$1"
    status=$?
    cmp names names_before
    return $status
}

# A name that is there for the key of `the`.
take_key() {
    rm -f names && echo a | keys pack --hash --names names packed && python3 - <<'END'
import sqlite3
from hashlib import blake2b
with sqlite3.connect("names") as names:
    key = int.from_bytes(blake2b(b"the", digest_size=8).digest(), "little", signed=True)
    names.execute("INSERT INTO names VALUES (?, ?)", (key, b"a"))
END
}

check_names() {
    local other='has the hash of another name in names' unnamed='cone 0 events 1 reports 1 closed\n7 1\n'
    local nowhere="keys: [Errno 2] No such file or directory: 'nowhere'\n"
    has python3 || return
    rm -f names && printf 'the\n' | keys pack --hash --names names packed
    printf 'a\n' | keys pack --hash --names names second
    gives 'adds names' 0 '1 the\n1 a\n' '' \
        eval "{ keys unpack packed; keys unpack second; } | sed 's/\$/ 1/' | keys label --names names | cut -d' ' -f2-"
    printf '{"who":"new"}\n{"who":0}\n{}\n' >bad
    gives 'adds no names of what is refused' 1 '' 'keys: standard input, line 3: no field who\n' names_kept bad
    gives 'labels by names that come late' 0 \
        "cone 0 events 3 reports 1 closed\n$(keys unpack packed) 3 the\ntotal events 3 reports 1\n" '' late_names
    gives 'takes the report of a run that it has no names for' 0 \
        'cone 0 events 3 reports 1 closed\n7 3\ntotal events 3 reports 1\n0 2\n' "$nowhere" unnamed_run
    gives 'labels by no names of another trace' 1 "$unnamed" \
        'keys: standard input, line 2: key 7 has no name in names, which has those of another trace\n' \
        label_visits names
    gives 'labels no number that is no key' 1 '18446744073709551616 1\n' \
        'keys: standard input, line 1: key 18446744073709551616 has no name in names, which has those of another trace\n' \
        eval 'echo 18446744073709551616 1 | keys label --names names'
    printf '\x1b[31m \xc2\x9b\x7f\n' | keys pack --hash --names names third
    gives 'labels with nothing that a terminal obeys' 0 '1 \\x1b[31m \\xc2\\x9b\\x7f\n' '' \
        eval "keys unpack third | sed 's/\$/ 1/' | keys label --names names | cut -d' ' -f2-"
    gives 'labels by no other file' 1 "$unnamed" 'keys: due, byte 0: no file of names: file is not a database\n' \
        label_visits due
    gives 'labels by no file' 2 "$unnamed" "$nowhere" label_visits nowhere
    gives 'wants no names where there is no report' 0 'cone 0 events 0 reports 0 closed\n' '' \
        eval 'echo cone 0 events 0 reports 0 closed | keys label --names nowhere'
    take_key
    gives 'refuses two names of one key' 1 '' "keys: standard input, at the end: the $other\n" \
        keys pack --hash --names names packed < <(echo the)
}

# --- runs that are watched

# What a stream that is refused leaves to the run behind it.
refused_stream() {
    rm -rf d
    printf '7\n7\n7\nx\n' | keys pack - | lert run --threshold 3 --cone-bits 0 d /dev/stdin
}

# Twelve lines, and a last one only when the first report was seen, or after 30 seconds.
slow_lines() {
    local tries
    yes the | head -n 12
    for tries in {1..300}; do
        [ ! -s watched ] || break
        sleep 0.1
    done
    cp watched watched_before
    echo end
}

watched_run() {
    rm -rf d names && : >watched
    watch --names names d >watched &
    slow_lines | keys pack --hash --names names - |
        lert run --threshold 3 --cone-bits 0 --bins 2 --base 4 --packet 1 d "$1"
    wait $!
    cat watched_before watched
}

# Over two cones, from a named pipe: what was watched is what is labelled in the end, and names those that are due.
watched_fifo() {
    rm -rf d names fifo && mkfifo fifo
    lert run --cone-bits 1 --base 64 --packet 16 d fifo >report &
    keys pack --hash --names names --csv who --from visits.csv fifo
    watch --names names d >watched
    wait $!
    cmp <(grep '^[0-9]' watched | cut -d' ' -f2- | sort) \
        <(keys label --names names <report | grep '^[0-9]' | sort) &&
        cmp <(grep '^[0-9]' watched | cut -d' ' -f4- | sort) <(cut -d' ' -f2- due | sort)
}

# until_passes COMMAND..: waits until the command passes, for at most 30 seconds.
until_passes() {
    local tries
    for tries in {1..300}; do
        ! "$@" || return 0
        sleep 0.1
    done
    echo "never: $*"
}

# watched_until COMMAND..: watches the run in d, which is over with this command, and not before.
watched_until() {
    local status watching
    : >watched
    watch --wait 60 d >watched 2>watched_err &
    watching=$!
    until_passes test -s watched
    sleep 1
    kill -0 $watching || echo 'it ended before the run'
    "$@"
    wait $watching
    status=$?
    cat watched && cat watched_err >&2
    return $status
}

twelve_sevens() { printf 'LERT\1\0\0\0' && printf '\7\0\0\0\0\0\0\0%.0s' {1..12}; }
# Each key is a packet, and each fourth one from the eighth on comes with a flush.
small_words=(run --threshold 3 --cone-bits 0 --bins 2 --base 4 --packet 1 d)

# A run over a pipe that stays open, until it is killed.
watched_killed() {
    local status
    rm -rf d pipe && mkfifo pipe && exec 9<>pipe
    # It is no job of this shell, which would tell that it was killed.
    (exec 9>&- && { "$top/lert" "${small_words[@]}" pipe & } && echo $! >run_id)
    twelve_sevens >&9
    watched_until kill -9 "$(cat run_id)"
    status=$?
    exec 9>&-
    return $status
}

# What a run left that was refused, while another process has the journal locked.
watched_held() {
    rm -rf d held let_go && { twelve_sevens && printf x; } >cut_late
    lert "${small_words[@]}" cut_late
    flock d/cone-000.journal "$BASH" -c ': >held; until [ -e let_go ]; do sleep 0.1; done' &
    until_passes test -e held
    watched_until touch let_go
}

# What shows the progress of the run in d on a terminal: lines, and how many times a whole bar is drawn.
on_terminal() {
    script -qec "$top/tools/watch --progress d sevens" /dev/null </dev/null | tr '\r' '\n' | grep . >drawn
    grep -a '^[a-z]' drawn
    grep -ac '100%.*3/3 .*fullest 3 of 786432' drawn | sed 's/^[1-9].*/a bar/'
}

check_bar() {
    local total='total events 3 reports 1\n'
    mkdir -p no_bar && echo 'raise ImportError' >no_bar/tqdm.py
    PYTHONPATH=no_bar gives 'shows lines on a terminal without tqdm' 0 \
        "events 3 a second 0 fullest 3 of 786432 share 100.0%%\n${total}0\n" '' on_terminal
    python_with tqdm && gives 'shows a bar on a terminal' 0 "${total}a bar\n" '' on_terminal
}

check_watch() {
    local report='cone 0 events 13 reports 1 closed\n' key total='total events 13 reports 1\n' stopped
    stopped='watch: d: the run was stopped: killed, refused or full, and `./lert recover d` prints what it left\n'
    has python3 || return
    key=$(echo the | keys pack --hash packed && keys unpack packed)
    gives 'refuses the run over a refused stream' 4 '' \
        'keys: standard input, line 4: no decimal number below 2^64\nlert: trace 0 bad at 32\nlert: trace 0 is /dev/stdin, whose writer stopped inside a key\n' \
        refused_stream
    gives 'watches a run while it goes on' 0 \
        "$report$key 3\n${total}0 $key 3 the\n0 $key 3 the\n$report$total" '' watched_run /dev/stdin
    has mkfifo && gives 'watches a run of two cones from a named pipe' 0 '' '' watched_fifo
    has mkfifo /proc/locks && gives 'watches a run until it is killed' 1 '0 7 3\n' "$stopped" watched_killed
    has flock /proc/locks && gives 'watches a run until nobody has it open' 1 '0 7 3\n' \
        "lert: trace 0 bad at 104\nlert: trace 0 is cut_late, which ends inside a key, $cut\n$stopped" watched_held
    has /proc/locks && gives 'shows how far a run came that was stopped' 1 \
        'events 12 a second 0 fullest 12 of 9555\n' "$stopped" watch --progress d
    gives 'watches no directory' 1 '' 'watch: nowhere: there are no logs of a run: no cone-000.journal\n' \
        watch --wait 0 nowhere
    run sevens >"$work/out"
    gives 'shows the progress of a run' 0 \
        'events 3 a second 0 fullest 3 of 786432 share 100.0%%\ntotal events 3 reports 1\n' '' watch --progress d sevens
    has script && PATH=$PATH check_bar
    rm d/cone-000.log
    gives 'watches no run without its logs' 1 '' 'watch: d: there are no logs of a run: no cone-000.log\n' \
        watch --wait 0 d
}

# What a tool says of itself.
says() { gives "$1 says what it does" 0 "$2\n" '' eval "$top/tools/$1 --help | head -n 1"; }

check_look() {
    has python3 || return
    says keys 'Makes traces of keys out of lines and other records, and names out of keys.'
    says watch 'Shows a run while it goes on, by the files that it writes.'
    says picture 'Makes a page with pictures of a run, of one that goes on too.'
    check_records
    check_skipping
    check_names
    check_network_packets
    check_captures
    check_watch
    check_picture
}
