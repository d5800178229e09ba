# Checks what a user meets around a run: its capacity, what it says of one, a service, and the page for users.
# tools/check reads it.

fit() { "$top/tools/fit" "$@"; }

# The key 0 so many times, all of which goes to cone 0.
zeroes() { printf 'LERT\1\0\0\0' && head -c $((8 * $1)) /dev/zero; }

# fitted CAPACITY WORDS..: this capacity is told, and by the options that are told a run takes as many events of one
# cone, and not one more.
fitted() {
    local options
    fit "${@:2}" >told || return
    options=$(sed -n 's/^options //p' told)
    sed -n 's/^capacity \([0-9,]*\) .*/capacity \1/p' told
    zeroes "$1" >whole && zeroes $(($1 + 1)) >over && rm -rf d e || return
    lert run --workers 1 $options d whole | tail -n 1
    lert run --workers 1 $options e over
}

# The same of items of weight 255, by the weight that is told.
fitted_by_weight() {
    local options
    fit "${@:2}" >told || return
    options=$(sed -n 's/^options //p' told)
    sed -n 's/^capacity .* and a weight of \([0-9,]*\),.*/weight \1/p' told
    trace_of "$(times "$1" "$(item 00 ff)")" >whole && trace_of "$(times $(($1 + 1)) "$(item 00 ff)")" >over || return
    rm -rf d e && lert run --workers 1 $options d whole | tail -n 1
    lert run --workers 1 $options e over
}

# What a plan for so many events of a mean amount has to say of a day, by plain numbers.
amounts_by_awk() {
    awk -v events="$1" -v mean="$2" 'BEGIN {
        items = events * (mean + 254) / 255; items = items > int(items) ? int(items) + 1 : items
        printf "runs a day 1 of %d events, at most %d items, a weight of %d\n", events, items, events * mean }'
}

check_fit() {
    gives 'a run at its capacity, by the room for reports' 8 'capacity 48\ntotal events 48 reports 1\n' \
        'lert: cone 0 full at 48 plus 1\n' fitted 48 --events 40 --threshold 12 --bins 3 --ratio 3 --base 4 --packet 8
    gives 'a run at its capacity, by the levels' 8 'capacity 71\ntotal events 71 reports 0\n' \
        'lert: cone 0 full at 64 plus 8\n' fitted 71 --events 60 --threshold 1000 --bins 3 --ratio 2 --base 4 --packet 8
    gives 'a run of eight cones at its capacity' 8 'capacity 1,911\ntotal events 1911 reports 1\n' \
        'lert: cone 0 full at 1904 plus 8\n' \
        fitted 1911 --events 5000 --threshold 3 --base 16 --packet 16 --cone-bits 3 --hottest 25%
    # 100 events of 700 weigh 70,000, and 138 times 510 is the least room for that: 276 times 255.
    gives 'a run at its capacity, by the weight' 13 'weight 70,380\ntotal events 276 reports 1\n' \
        'lert: cone 0 weight full at 0 plus 70635\n' fitted_by_weight 276 --events 100 --threshold 510 --amount 700 --fill 1
    gives 'items and weight of a plan for amounts' 0 "$(amounts_by_awk 12345 612)\n" '' \
        eval 'fit --events 12345 --threshold 100000 --amount 612 | sed -n "2s/\([0-9]\),/\1/gp" | sed "s/events /events, /; s/,,/,/; s/items /items, /; s/,,/,/"'
    gives 'a plan for amounts of 1 each' 0 "$(fit --events 1000000 --threshold 100 | head -n 1)\n" '' \
        eval 'fit --events 1000000 --threshold 100 --amount 1 | head -n 1'
    gives 'no options for too little memory' 1 '' 'fit: the memory is too little for any run\n' \
        fit --events 100 --memory 1M
    gives 'no options for numbers that break a rule' 1 '' 'fit: the numbers break rule 2\n' fit --events 100 --bins 17
}

# --- what a run reported

report() { "$top/tools/report" "$@"; }

# Compares what is told of each report, and of each cone, with a plain count of the keys of the journals, and the places
# of the reports with those that the definitions make of them.
counted() {
    report --format csv --names names d >told.csv && report --format json d >told.json &&
        "$top/tools/sound" --reports closing d >sound.txt || return
    python3 - "$top/tools/journal" <<'END'
import csv, json, sqlite3, subprocess, sys
from collections import defaultdict

told, whole = list(csv.DictReader(open("told.csv"))), json.load(open("told.json"))
places = defaultdict(list)
for cone in whole["cones"]:
    file = f"d/cone-{cone['cone']:03}.journal"
    keys = subprocess.run([sys.argv[1], "--keys", file], stdout=subprocess.PIPE).stdout.split()
    assert cone["events"] == len(keys) and cone["closed"], cone
    for at, key in enumerate(keys, 1):
        places[cone["cone"], int(key)].append(at)
due = [line.split() for line in open("sound.txt")]
assert [[one["key"], one["reported"]] for one in told] == due, due
for one in told:
    found = places[int(one["cone"]), int(one["key"])]
    assert [len(found), found[0], found[23]] == [int(one[name]) for name in ("count", "first", "reached")], one
assert sum(len(found) >= 24 for found in places.values()) == len(told) == len(whole["reports"]) > 10
names = dict(sqlite3.connect("names").execute("SELECT key, name FROM names"))
for one in told:
    name = names[int(one["key"]) - (int(one["key"]) >> 63 << 64)].decode()
    assert one["name"] == name.replace("\n", "\\x0a"), one
END
}

# What is told of a run that goes on, and behind its end.
told_meanwhile() {
    rm -rf d fifo && mkfifo fifo && exec 7<>fifo
    lert run --threshold 3 --cone-bits 0 --bins 2 --base 4 --packet 1 d fifo >ran 7>&- &
    { printf 'LERT\1\0\0\0' && head -c 104 /dev/zero; } >&7
    for _ in {1..300}; do
        report d 2>"$work/err" | grep -q '^cone 0 events 13 .* reports 1' && break
        sleep 0.1
    done
    report d
    exec 7>&-
    wait $!
    report d
}

# A name with a byte of each kind that a terminal may obey: as text, as CSV and as JSON.
told_plainly() {
    printf 'a\xc3\xa4\xc4\x9b\x1b[1m\xe2\x80\xae\xc2\x9b\xff\n' | keys pack --hash --names names named &&
        rm -rf d && lert run --threshold 1 --cone-bits 0 d named >ran && report --names names d | tail -n 1 | cut -d' ' -f7-
    report --names names --format csv d | tail -n 1 | cut -d, -f8
    report --names names --format json d | sed 's/.*"name": //'
}

check_report() {
    local columns='cone key count first reached reported name\n'
    make_visits
    rm -rf d names && keys pack --hash --names names --csv who --from visits.csv packed &&
        lert run --cone-bits 1 --packet 16 --base 16 --bins 8 d packed >ran
    gives 'tells of each report what a plain count says' 0 '' '' counted
    gives 'tells the options of a run' 0 \
        'threshold 24 --bins 8 --ratio 4 --base 16 --levels 5 --cone-bits 1 --room 262144 --packet 16\n' '' \
        eval 'report --format options d | cut -c 3-'
    local escapes='\\xc4\\x9b\\x1b[1m\\xe2\\x80\\xae\\xc2\\x9b\\xff\n'
    gives 'tells names without what a terminal obeys' 0 \
        "a\xc3\xa4${escapes}a\xc3\xa4${escapes}"'"a\\u00e4\\u011b\\u001b[1m\\u202e\\u009b\\\\xff"}]}\n' '' told_plainly
    run_long 3 3 2 4 2 0 32 8 too_many 2>"$work/err"
    gives 'tells of a run that stopped' 0 'cone 0 events 64 of 71 reports 0 open\n' '' report d
    has mkfifo && gives 'tells of a run that goes on' 0 \
        "cone 0 events 13 of 9555 reports 1 open\n${columns}0 0 13 1 3 3\ncone 0 events 13 of 9555 reports 1 closed\n${columns}0 0 13 1 3 3\n" \
        '' told_meanwhile
    printf '\3' | dd of=d/cone-000.log bs=1 seek=13 conv=notrunc status=none
    gives 'tells where a log is broken' 1 '' 'report: d/cone-000.log, byte 13: the file leaves its format\n' report d
    gives 'metrics of a directory that cannot be read' 0 \
        '# HELP lert_readable Whether the files of the run can be read.\n# TYPE lert_readable gauge\nlert_readable{directory="d"} 0\n' \
        '' report --format prometheus d
    gives 'tells of no run' 1 '' 'report: nowhere: there are no logs of a run: no cone-000.journal\n' report nowhere
}

# --- a service

live() { timeout 900 "$top/tools/live" "$@"; }

# What a service says, without the time in the names of directories.
untimed() { sed 's/-[0-9]*T[0-9]*Z//g'; }

# Judges what a service left: the reports of each directory are those that the definitions make of its journals, all were
# shown, once, and the records are those in the journals and those that are told to be in none. Prints how many there
# are of both, and how many directories.
judged_live() {
    python3 - "$top/tools/sound" shown <<'END'
import json, subprocess, sys
from collections import Counter
from pathlib import Path

def asked(*words):
    return subprocess.run([sys.argv[1], *words], stdout=subprocess.PIPE).stdout.decode().splitlines()

shown = Counter(tuple(line.split()[:4:1])[:1] + tuple(line.split()[2:4]) for line in open(sys.argv[2]))
assert set(shown.values()) <= {1}, shown.most_common(1)
state = json.loads(Path("l/state").read_text())
places = sorted(Path("l").glob("run-*"))
events = 0
for place in places:
    ended = json.loads((place / "ended").read_text())
    cones = [line.split() for line in asked(place)]
    made = "closing" if all(cone[-1] == "closed" for cone in cones) else "look"
    due = [tuple(line.split()) for line in asked("--reports", made, place)]
    printed = [tuple(line.split()) for line in (place / "report").open() if line[0].isdigit()]
    assert sum(int(cone[3]) for cone in cones) == ended["events"] == ended["given"] - ended["lost"], ended
    assert printed == due, place
    assert {one[1:] for one in shown if one[0] == place.name} == set(due), place
    events += ended["events"]
assert not state["folder"] and state["records"] == events + state["lost"], state
print(f"{events} {state['lost']} {len(places)}")
END
}

# 200,000 lines from a pipe, in as many directories as they fill.
live_full() {
    rm -rf l && lert gen --events 200000 >packed && keys unpack packed | sed 's/^/key /' |
        live --base 64 --levels 4 --packet 64 --full 0.9 l >shown 2>said || cat said
    grep -c 'its fullest cone is full enough; closed' said
    judged_live
}

# The same from a named pipe, while the run, the packer and the service are killed; a slow end, so that the last ones
# are there to be stopped in order.
live_killed() {
    local kill service status begun=0
    rm -rf l fifo && mkfifo fifo && exec 7<>fifo && : >shown
    "$top/tools/live" --pipe fifo --again --base 64 --packet 16 l >>shown 2>said 7>&- &
    service=$!
    for kill in run packer service end; do
        keys unpack packed | sed 's/^/key /' | head -n 50000 >&7
        begun=$((begun + 1))
        for _ in {1..300}; do
            [ "$(grep -c ': begun' said)" -ge $begun ] && pgrep -P $service >children &&
                [ "$(wc -l <children)" -eq 2 ] && [ -s shown ] && break
            sleep 0.1
        done
        case $kill in
        packer) command kill -9 "$(head -n 1 children)" ;;
        run) command kill -9 "$(tail -n 1 children)" ;;
        service)
            command kill -9 $service && wait $service 2>killed
            "$top/tools/live" --pipe fifo --again --base 64 --packet 16 l >>shown 2>>said 7>&- &
            service=$!
            ;;
        end)
            sleep 2 && command kill -TERM $service
            wait $service
            status=$?
            break
            ;;
        esac
        # Lines that come before the service knows would go to what is left of the run.
        for _ in {1..300}; do [ "$(grep -c -e 'by itself' -e 'had ended' said)" -ge $begun ] && break || sleep 0.1; done
    done
    echo "status $status"
    exec 7>&-
    sort -u shown >sorted && mv sorted shown
    judged_live | (read -r events lost count && echo "$((events + lost >= 199000 && events + lost <= 200001)) $((count >= 4))")
}

# A file that is followed, over a crash of its run, its rotation, and an end of the service: no line is lost.
live_followed() {
    local service
    rm -rf l log* && : >said && seq 1 1000 | sed 's/$/ a/' >log
    "$top/tools/live" --follow log --threshold 3 l >shown 2>said &
    service=$!
    for _ in {1..300}; do grep -q begun said && break || sleep 0.1; done
    command kill -9 $(pgrep -P $service | tail -n 1)
    for _ in {1..300}; do grep -q '000002.*begun' said && break || sleep 0.1; done
    mv log log.1 && echo last >>log.1 && seq 1 500 | sed 's/$/ a/' >log
    for _ in {1..300}; do grep -q 'log: another file' said && break || sleep 0.1; done
    sleep 1 && command kill -TERM $service && wait $service
    echo "status $?" && seq 1 250 | sed 's/$/ a/' >>log
    "$top/tools/live" --follow log --threshold 3 --every 2 l >>shown 2>>said &
    service=$!
    for _ in {1..300}; do grep -q '000003.*begun' said && break || sleep 0.1; done
    sleep 3 && command kill -TERM $service && wait $service
    echo "status $?" && judged_live
}

# Lines that are no records, a command that ends and is begun again, and metrics.
live_bad() {
    rm -rf l m.prom
    printf '%s\n' '{"a":1}' '{"b":1}' no '{"a":"1"}' '{"a":1}' | live --json a --threshold 3 --metrics m.prom l >shown
    cut -d' ' -f2- shown && grep -v '^#' m.prom | grep -e total -e ratio -e up | sort
}

live_words() {
    rm -rf l
    printf '%s\n' '10.0.0.7 - GET' '' '10.0.0.7' ' 10.0.0.7  POST' 10.0.0.9 | live --field 1 --threshold 3 l | cut -d' ' -f4-
    printf '%s\n' 'a 7' 'b 7 c' 'd x' 7 'e 7' | live --field 2 --numbers --threshold 3 l | cut -d' ' -f2-
}

live_again() {
    rm -rf l once && : >said
    "$top/tools/live" --again --pause 0.1 --stall 1 --threshold 3 l -- sh -c 'echo 7; [ -e once ] && sleep 60; : >>once; echo 7' >shown 2>said &
    for _ in {1..300}; do grep -q 'nothing came' said && break || sleep 0.1; done
    command kill -INT $! && wait $!
    echo "status $?" && cut -d' ' -f2- shown && untimed <said
}

# Three services one after the other, and which of their directories are left.
live_kept() {
    rm -rf l
    for _ in 1 2 3; do echo ann | live --keep 2 l 2>said || cat said; done
    ls l | untimed
}

check_live() {
    local key metrics again
    has mkfifo pgrep || return
    key=$(echo 1 | keys pack --hash packed && keys unpack packed)
    metrics='lert_live_bad_total{service="l"} 2\nlert_live_full_ratio{service="l"} 0\n'
    metrics+='lert_live_lost_total{service="l"} 0\nlert_live_records_total{service="l"} 3\n'
    metrics+='lert_live_runs_total{service="l"} 1\nlert_live_up{service="l"} 0\n'
    again="0 $(echo 7 | keys pack --hash packed && keys unpack packed) 3 7\nlive: run-000001: begun\n"
    again="status 0\n${again}live: the command, with status 0, has ended\nlive: nothing came for 1 seconds\n"
    again+='live: run-000001: the service ends; closed: 3 events, 0 records in no journal\n'
    again+='live: ended: 3 records, 0 lines that are none, 0 records in no journal\n'
    gives 'a service over 200,000 lines' 0 '2\n200000 0 3\n' '' live_full
    gives 'a service that is killed' 0 'status 0\n1 1\n' '' eval 'live_killed 2>killed'
    gives 'a service that follows a file' 0 'status 0\nstatus 0\n1751 0 3\n' '' live_followed
    gives 'a service over lines that are no records' 0 "0 $key 3 1\n$metrics" '' eval 'live_bad 2>said'
    gives 'a service over words of lines' 0 '3 10.0.0.7\n0 7 3\n' '' eval 'live_words 2>said'
    gives 'a service that is stopped by such lines' 0 'live: 1 lines are no records, the last ones: no field a\n' '' \
        eval "echo {} | live --json a --bad stop l 2>&1 | head -n 1"
    gives 'a service over a command that ends' 0 "$again" '' live_again
    gives 'a service without place on the disk' 3 'live: the disk has N bytes free, less than N: ending the run in order\n' '' \
        eval 'live --reserve 1000000G l >told 2>&1; status=$?; head -n 1 told | sed "s/[0-9][0-9]*/N/g"; (exit $status)'
    gives 'a service over input that is not what was said' 1 '' 'live: no column is named who of a\n' \
        live --csv who l < <(echo a)
    gives 'a service that keeps two directories' 0 'run-000002\nrun-000003\nstate\n' '' live_kept
    gives 'a second service' 2 '' 'live: l/state: another service has this directory\n' flock l/state "$top/tools/live" l
}

check_use() {
    has python3 || return
    says live 'usage: live [OPTION].. DIR [-- COMMAND..]'
    says report 'usage: report [-h] [--format {text,csv,json,options,prometheus}]'
    says fit 'usage: fit [-h] --events N [--threshold T] [--hottest SHARE] [--memory BYTES]'
    check_fit
    check_report
    check_live
    check_services_of_amounts
    check_metrics
    check_pages
    check_package
    gives 'the commands of docs/USE.md' 0 '' '' commands "$top/docs/USE.md"
}
