# Checks the causes that ./lert tells behind a status, and that it ends as the program does. tools/check reads it.

# tells NAME STATUS SAID CAUSE WORDS..: a run into d by these words ends so, with what the program says and the cause.
tells() { gives "tells of $1" "$2" '' "lert: $3\nlert: $4\n" run_into_d "${@:5}"; }
run_into_d() { rm -rf d && lert run --threshold 3 --cone-bits 0 d "$@"; }

# looks_like NAME LOOK: what stands in the file `input` is told to be a trace of none, and to look so.
looks_like() { tells "$1" 4 'trace 0 bad at 0' "trace 0 is input, which looks like $2" input; }

check_looks() {
    printf 'card,sum\n7,20\n' >input
    looks_like 'a CSV' 'a CSV: tools/keys pack --csv COLUMN --hash makes a trace of it'
    gzip -c input >packed && mv packed input
    looks_like 'a gzip file' 'a gzip file: tools/keys pack unpacks it'
    printf '{"card": 7}\n{"card": 8}\n' >input
    looks_like 'JSON lines' 'JSON lines: tools/keys pack --json FIELD --hash makes a trace of them'
    printf '7\n8\n' >input
    looks_like 'numbers' 'numbers, one a line: tools/keys pack makes a trace of them'
    printf 'ann\nm\303\244x\nbob, too' >input
    looks_like 'lines' 'text: tools/keys pack --hash makes a trace of its lines'
    printf '\377\376a\0,\0b\0\n\0' >input
    looks_like 'UTF-16' 'UTF-16 text: iconv -f UTF-16 -t UTF-8 makes of it what tools/keys pack reads'
    printf 'a\0,\0b\0\n\0' >input
    looks_like 'UTF-16 without a mark' 'UTF-16 text: iconv -f UTF-16 -t UTF-8 makes of it what tools/keys pack reads'
    printf '\324\303\262\241\2\0\4\0' >input
    looks_like 'a pcap' 'a pcap file: tools/keys pack --packets makes a trace of it'
    run sevens >"$work/out" && mv d/cone-000.journal input
    tells 'a journal' 4 'trace 0 bad at 4' \
        'trace 0 is input, which looks like the journal of a cone: tools/journal reads it' input
    tells 'a pipe without a trace' 4 'trace 0 bad at 0' 'trace 0 is /dev/stdin, whose writer wrote no trace' \
        /dev/stdin < <(echo 7)
    tells 'a name that a terminal obeys' 2 'place fault' '\\x1b[2J: No such file or directory' $'\e[2J'
}

# Root may all by a capability: this is without it.
unprivileged() {
    if [ "$(id -u)" -eq 0 ]; then
        setpriv --bounding-set=-dac_override,-dac_read_search "$@"
    else
        "$@"
    fi
}
# unprivileged_run DIR TRACE: a run by one who has only what modes give.
unprivileged_run() { unprivileged "$top/lert" run --threshold 3 --cone-bits 0 "$@"; }
# shut_recovery: a recovery of files one of which may not be written.
shut_recovery() { chmod 400 d/cone-000.log && unprivileged "$top/lert" recover d; }
held_recovery() { flock d/cone-000.journal "$top/lert" recover d; }

check_permissions() {
    local said='lert: place fault\nlert:'
    rm -rf shut shut_folder && cp sevens shut && mkdir shut_folder && chmod 0 shut && chmod 555 shut_folder
    if unprivileged cat shut >"$work/out" 2>&1; then
        echo 'skipped: who checks may read each file'
        return
    fi
    gives 'tells of a trace that may not be read' 2 '' "$said shut: Permission denied\n" unprivileged_run d shut
    gives 'tells of a folder that takes no directory' 2 '' "$said shut_folder: Permission denied\n" \
        unprivileged_run shut_folder/d sevens
    run sevens >"$work/out"
    gives 'tells of a file that may not be written' 2 '' "$said d/cone-000.log: Permission denied\n" shut_recovery
}

# 64 cones, by one who has no other files open than the streams, and may have 100.
too_many_files() (
    rm -rf d
    for file in /proc/$BASHPID/fd/*; do
        [ "${file##*/}" -le 2 ] || eval "exec ${file##*/}>&-"
    done
    ulimit -n 100 && lert run --cone-bits 6 --base 4 --levels 1 --room 1 --threshold 9 d sevens
)

# A limit of file sizes that no signal tells of.
too_long_files() (
    trap '' XFSZ
    ulimit -f 100 && run_into_d long
)

# ended_by SIGNAL WHOM: a run over a pipe that stays open gets a signal, or the program below it. How it ends, and
# whether nothing of it is left.
ended_by() {
    local run program
    rm -rf d pipe && mkfifo pipe && exec 9<>pipe
    "$top/lert" run --threshold 3 --cone-bits 0 d pipe 9>&- 2>said &
    run=$!
    until_passes test -e d/cone-000.log
    program=$(pgrep -P $run)
    case $2 in run) kill "-$1" $run ;; program) kill "-$1" "$program" ;; esac
    wait $run 2>"$work/killed"
    echo "status $?" && cat said
    until_passes eval "! kill -0 $program 2>$work/killed"
    exec 9>&-
}

check_causes() {
    has python3 setpriv || return
    check_looks
    check_permissions
    { printf 'LERT\1\0\0\0' && head -c 160000 /dev/zero; } >long
    has /proc/self/fd && gives 'tells of too many open files' 2 '' \
        'lert: 209 files may have to be open at once, and the limit is 100 (ulimit -Hn)\nlert: place fault\nlert: too many open files: 199 are needed, and the limit is 100 (ulimit -Hn)\n' \
        too_many_files
    gives 'tells of a limit of file sizes' 7 '' \
        'lert: cone 0 disk fault\nlert: no file may be longer than 102,400 bytes (ulimit -f)\n' too_long_files
    run sevens >"$work/out"
    has flock /proc/locks && gives 'tells of another program' 2 '' \
        'lert: place fault\nlert: d: another program has it, and one at a time may\n' held_recovery
    has mkfifo pgrep || return
    gives 'a run that is ended' 0 'status 143\n' '' ended_by TERM run
    gives 'a run that is killed' 0 'status 137\n' '' ended_by KILL run
    gives 'a run whose program is killed' 0 'status 137\n' '' ended_by KILL program
}
