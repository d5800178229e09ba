# Checks services over records with amounts, and how full cones of weights are. tools/check reads it.

# What is in the journals of a service, directory by directory: each key and its weight.
items_of_service() {
    local folder
    for folder in l/run-*; do journal --keys --weights "$folder/cone-000.journal"; done
}

# Sums of the weights of each key, and how many keys have each.
sums() { awk '{ sum[$1] += $2 } END { for (key in sum) keys[sum[key]]++; for (one in keys) print keys[one] " keys of " one }' | sort; }

# amounts_served FORMAT WORDS..: the items that a service makes of a text, and what it says at the end.
amounts_served() {
    rm -rf l && printf "$1" | live --threshold 1000 "${@:2}" l >shown 2>said
    items_of_service | sed 's/^[0-9]\{9,\} /hash /' && tail -n 1 said
}

# serves_amounts NAME RECORDS BAD ITEMS FORMAT WORDS..
serves_amounts() {
    local told="live: ended: $2 records, $3 lines that are none, an amount of 0 in no journal\n"
    gives "a service over amounts of $1" 0 "$4$told" '' amounts_served "${@:5}"
}

live_refuses() { gives "a service with ${*:2}" 2 "live: error: $1\n" '' live_said_last "${@:2}"; }
live_said_last() {
    local status
    live "$@" l </dev/null 2>said
    status=$?
    tail -n 1 said
    return $status
}

# A cone takes a weight of 1,000, and of that 900 in a directory: four times 200, be they of many rows or of one reading.
full_by_weight() {
    rm -rf l && seq 18 | sed 's/^/200 /' | live --field 2 --weight 1 --numbers --threshold 100 --room 10 l >shown 2>said
    grep -c 'its fullest cone is full enough; closed: 4 events, an amount of 0' said
    report l/run-000001-* | head -n 1
    items_of_service | sums
    rm -rf l && seq 3 | sed 's/^/600 /' | live --field 2 --weight 1 --numbers --threshold 100 --room 10 l >shown 2>said
    grep -c 'full enough; closed: 3 events' said
}

# A file that is followed: its run is killed behind 2,996 items, and the last of 999 records of 600 has three of which
# two are there. Then the service is killed. All amounts are in journals, and the rest of that record comes first.
live_cut() {
    local service words=(--follow log --field 2 --weight 1 --numbers --threshold 100000 --packet 4)
    rm -rf l && seq 999 | sed 's/^/600 /' >log && : >said
    "$top/tools/live" "${words[@]}" l >shown 2>said &
    service=$!
    for _ in {1..300}; do grep -q begun said && break || sleep 0.1; done
    grows_to $((33 + 749 * (13 + 4 * 9))) l/run-000001-*/cone-000.journal
    command kill -9 $(pgrep -P $service | tail -n 1)
    for _ in {1..300}; do grep -q '000002.*begun' said && break || sleep 0.1; done
    command kill -9 $service && wait $service 2>killed
    echo '600 1000' >>log
    "$top/tools/live" "${words[@]}" l >>shown 2>>said &
    service=$!
    for _ in {1..300}; do grep -q '000003.*begun' said && break || sleep 0.1; done
    sleep 1 && command kill -TERM $service && wait $service
    echo "status $?" && tail -n 1 said
    items_of_service | sed -n '2996,2998p'
    items_of_service | sums
}

# The same of a pipe, to its end: what isn't there is told.
live_lost() {
    local service
    rm -rf l fifo && mkfifo fifo && exec 7<>fifo && : >said
    "$top/tools/live" --field 2 --weight 1 --numbers --threshold 100000 --packet 4 l <fifo >shown 2>said 7>&- &
    service=$!
    seq 999 | sed 's/^/600 /' >&7
    for _ in {1..300}; do grep -q begun said && break || sleep 0.1; done
    grows_to $((33 + 749 * (13 + 4 * 9))) l/run-000001-*/cone-000.journal
    command kill -9 $(pgrep -P $service | tail -n 1)
    exec 7>&-
    wait $service
    echo "status $?" && sed -n 's/.*\(: 2996 events, .*\)/\1/p; $p' said
    items_of_service | awk '{ sum += $2 } END { print sum }'
}

# What is told of a cone whose weight fills more of its room than its items.
fullness_of_weights() {
    trace_of "$(item 07 ff)" "$(item 07 ff)" >weighed && rm -rf d &&
        lert run --threshold 100 --room 10 --cone-bits 0 d weighed >ran && watch --progress d weighed
    report d | head -n 1
    report --format prometheus d | grep -e '^lert_full' -e '^lert_weight'
    report --format json d | grep -o '"cones.*}],'
}

check_services_of_amounts() {
    local no='cone 0 events 4 of 1000 weight 800 of 1000 reports 4 closed\n' json
    has python3 mkfifo pgrep || return
    serves_amounts 'a CSV' 4 2 'hash 255\nhash 255\nhash 90\nhash 1\nhash 3\n' \
        'host,bytes\na,600\nb,1\nc,-1\nd\n"e\nf",3\ng,0\n' --csv host --weight bytes
    serves_amounts 'columns by number' 2 1 '8 255\n8 1\n9 2\n' '256;8\n2;x\n2;9\n' \
        --csv 2 --weight 1 --delimiter ';' --numbers
    serves_amounts 'JSON lines' 2 3 'hash 255\nhash 45\nhash 2\n' \
        '{"a":"x","n":"300"}\n{"a":1}\n{"a":2,"n":1.5}\nno\n{"a":"\\u00e9\\n","n":2}\n' --json a --weight n
    serves_amounts 'words' 3 2 '7 2\n9 255\n9 255\n' '2 7\n0 8\n510 9\n1\nx 7\n' --field 2 --weight 1 --numbers
    serves_amounts 'more than a cone takes' 1 1 '7 255\n7 255\n7 90\n' '1001 7\n600 7\n' \
        --field 2 --weight 1 --numbers --threshold 100 --room 10
    gives 'a service that an amount that is none stops' 0 \
        'live: 1 lines are no records, the last ones: the amount is no decimal number up to 4294967295\n' '' \
        eval "echo 1.5 a | live --field 2 --weight 1 --bad stop l 2>&1 | head -n 1"
    live_refuses '--weight goes with --csv, --json or --field' --weight 2
    live_refuses 'the weight of a line is one of its words, by its number' --field 1 --weight sum
    live_refuses 'words are numbered from 1' --field 1 --weight 0
    live_refuses 'columns are numbered from 1' --csv sum --weight 0
    gives 'a service whose cones are full by weight' 0 "4\n${no}18 keys of 200\n2\n" '' full_by_weight
    gives 'a record that a crash cuts comes again' 0 \
        'status 0\nlive: ended: 1000 records, 0 lines that are none, an amount of 0 in no journal\n999 255\n999 90\n1000 255\n1000 keys of 600\n' \
        '' eval 'live_cut 2>killed'
    gives 'of a pipe its rest is told' 0 \
        'status 0\n: 2996 events, an amount of 90 in no journal\nlive: ended: 999 records, 0 lines that are none, an amount of 90 in no journal\n599310\n' \
        '' eval 'live_lost 2>killed'
    json='"cones": [{"cone": 0, "events": 2, "reports": 1, "capacity": 1000, "weight": 510, "weight_room": 1000, "closed": true}],'
    gives 'how full a cone is by weight' 0 \
        "events 2 a second 0 fullest 510 of 1000 by weight share 100.0%%\ntotal events 2 reports 1\ncone 0 events 2 of 1000 weight 510 of 1000 reports 1 closed\nlert_weight{directory=\"d\",cone=\"0\"} 510\nlert_full_ratio{directory=\"d\",cone=\"0\"} 0.510000\n$json\n" \
        '' fullness_of_weights
}
