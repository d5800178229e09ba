# Checks the tools that read and write files, and that the documents name what is there. tools/check reads it.

# --- tools/keys

keys() { "$top/tools/keys" "$@"; }
# The bytes of a file in sixteen digits for each eight of them.
eights() { od -An -v -tx1 "$1" | tr -d ' \n' | sed 's/.\{16\}/&\n/g'; }
pack_bytes() { keys pack "$@" packed && eights packed; }
round_trip() { keys pack packed && keys unpack packed; }

# A report in which each line's hash stands at 12, labelled, without the hashes.
labelled() {
    keys pack --hash --names names packed &&
        keys unpack packed | sed 's/$/ 12/' | keys label --names names | cut -d' ' -f2-
}

# left_by_refusal WORDS..: what a refusal leaves: the trace of before, and no file beside it.
left_by_refusal() {
    local status
    rm -rf kept && mkdir kept && echo 7 | keys pack kept/trace || return
    keys pack "$@" kept/trace
    status=$?
    keys unpack kept/trace && ls kept
    return $status
}

# The same where the names can't be written: their place is a directory.
left_without_names() {
    local status
    rm -rf kept && mkdir -p kept/names && echo 7 | keys pack kept/trace || return
    keys pack --hash --names kept/names kept/trace
    status=$?
    keys unpack kept/trace && ls kept
    return $status
}

check_keys() {
    local line refusal='keys: standard input, line 2: no decimal number below 2^64\n'
    has python3 od || return
    gives 'packs numbers' 0 '4c45525401000000\n6401000000000000\nffffffffffffffff\n' '' \
        pack_bytes < <(printf '356\n18446744073709551615\n')
    gives 'packs nothing' 0 '4c45525401000000\n' '' pack_bytes </dev/null
    gives 'unpacks what it packed' 0 '7\n0\n7\n18446744073709551615\n' '' \
        round_trip < <(printf '007\n0\n7\n18446744073709551615')
    gives 'labels what it hashed' 0 '12 the\n12 a\n12 the\n12 \n12 %%\xff\n' '' \
        labelled < <(printf 'the\na\nthe\n\n%%\xff\n')
    for line in -1 '' 18446744073709551616 '7 ' 0x7 7.0 000000000000000000007 '7\r' '٧'; do
        gives "packs no line '$line'" 1 '7\ntrace\n' "$refusal" \
            left_by_refusal < <(printf "8\n$line\n9\n")
    done
    gives 'leaves the trace where its names have no place' 2 '7\nnames\ntrace\n' \
        "keys: [Errno 21] Is a directory: 'kept/names'\n" left_without_names < <(echo the)
    has b2sum || return
    gives 'hashes as b2sum' 0 "4c45525401000000\n$(printf the | b2sum -l 64 | cut -d' ' -f1)\n" '' \
        pack_bytes --hash < <(echo the)
    check_outputs
}

check_unpacking() {
    has python3 || return
    local left='the trace leaves its format\n'
    gives 'unpacks no empty file' 1 '' "keys: empty, byte 0: $left" keys unpack empty
    gives 'unpacks no cut header' 1 '' "keys: cut_header, byte 7: $left" keys unpack cut_header
    gives 'unpacks no other header' 1 '' "keys: other_header, byte 3: $left" keys unpack other_header
    gives 'unpacks no cut key' 1 '7\n' "keys: cut_key, byte 16: $left" keys unpack cut_key
}

# --- tools/journal

journal() { "$top/tools/journal" "$@"; }

# The journal of one packet of three keys 7, of version 1, and what it leaves the format by.
check_journal() {
    local head='LERTJ\1\0\0\3\0\0\0\40\0\0\0\4\0\0\0\10\0\0\0\3\2\2\0\0\0\0\0'
    local key='\7\0\0\0\0\0\0\0' left='journal: the file leaves its format at byte'
    has python3 || return
    printf "$head"'\1\40\0\0\0\0\0\0\0\0\0\0\0'"$key$key$key"'\0' >packet
    head -c 69 packet >no_gate
    head -c 40 packet >cut_packet
    printf "$head"'\1\7\0\0\0\0\0\0\0\0\0\0\0' >no_packet
    printf "$head"'\1\20\0\0\0\100\0\0\0\0\0\0\0'"$key"'\0' >another_worker
    gives 'reads a packet' 0 '0 0 3\n' '' journal packet
    gives 'reads its keys' 0 '7\n7\n7\n' '' journal --keys packet
    gives 'reads no empty file' 1 '' "$left 0\n" journal empty
    gives 'reads no trace' 1 '' "$left 4\n" journal no_key
    gives 'reads a packet without a gate behind it' 1 '0 0 3\n' "$left 69\n" journal no_gate
    gives 'reads no cut packet' 1 '' "$left 40\n" journal cut_packet
    gives 'reads no packet without keys' 1 '' "$left 33\n" journal no_packet
    gives 'reads no packet of worker 64' 1 '' "$left 37\n" journal another_worker
}

# --- tools/sound

sound() { "$top/tools/sound" "$@"; }

# The files of a cone that was closed behind three keys 7, with that journal, and what makes them unsound.
check_sound() {
    local key='\7\0\0\0\0\0\0\0' three='\3\0\0\0\0\0\0\0' head='LERTL\1\0\0\1\57\0\0\0' wrong='sound: cone-000:'
    local from='\40\0\0\0\0\0\0\0\1\0\0\0\0\0\0\0\0\0\1\0\0\0'
    has python3 || return
    mkdir files && cp packet files/cone-000.journal && : >files/cone-000.frames
    printf "$head"'\2'"$three$from$key$three"'\0' >files/cone-000.log
    gives 'files of three keys' 0 'cone 0 events 3 n0 3 reports 1 closed\n' '' sound files
    gives 'the reports of three keys' 0 '7 3\n' '' sound --reports look files
    printf "$head"'\2\2\0\0\0\0\0\0\0'"$from$key"'\2\0\0\0\0\0\0\0\0' >files/cone-000.log
    gives 'a log closed too early' 1 '' "$wrong file 0 is broken at byte 32\n" sound files
    printf "$head"'\2'"$three$from$key"'\4\0\0\0\0\0\0\0\0' >files/cone-000.log
    gives 'a report behind the events' 1 '' "$wrong file 1 is broken at byte 52\n" sound files
    printf "$head"'\1'"$three$from$key$three"'\0' >files/cone-000.log
    gives 'a flush out of turn' 1 '' "$wrong file 1 is broken at byte 14\n" sound files
    printf "$head"'\2'"$three$from$key$three"'\1\0' >files/cone-000.log
    gives 'a record behind a closing one' 1 '' "$wrong file 1 is broken at byte 60\n" sound files
    printf "$head"'\2'"$three$from$key$three"'\0' >files/cone-000.log
    cp -r files other_cone && (cd other_cone && for name in *; do mv "$name" "cone-001.${name#*.}"; done)
    gives 'files named by another number' 1 '' 'sound: cone-001: the header is that of cone 0\n' sound other_cone
    cp -r files no_settings && printf '\377' | dd of=no_settings/cone-000.journal bs=1 seek=27 conv=notrunc status=none
    gives 'numbers that no settings have' 1 '' "$wrong the header's numbers break rule 6 of the settings\n" sound no_settings
    rm files/cone-000.journal
    gives 'a log without a journal' 2 '' \
        "sound: [Errno 2] No such file or directory: 'files/cone-000.journal'\n" sound files
    gives 'no directory' 2 '' "sound: [Errno 2] No such file or directory: 'nowhere'\n" sound nowhere
    rm -rf files other_cone no_settings
}

# empty_cones DIR CONE..: empty files of these cones.
empty_cones() {
    local cone
    for cone in "${@:2}"; do
        : >"$1/cone-$cone.journal" && : >"$1/cone-$cone.log" && : >"$1/cone-$cone.frames"
    done
}

# Runs whose cones aren't all made, and a whole one beside files that mean nothing.
check_made() {
    local head='LERTJ\1\0\0\3\0\0\0\40\0\0\0\4\0\0\0\10\0\0\0\3\2\2'
    has python3 || return
    mkdir files && printf "$head"'\0\0\0\0\0\0' >files/cone-000.journal
    printf 'LERTL\1\0\0\0' >files/cone-000.log && : >files/cone-000.frames
    empty_cones files 001 002
    gives 'a run beside empty files' 0 'cone 0 events 0 n0 0 reports 0 open\n' '' sound files
    gives 'its weave' 0 'cone 0 packets 0 keys 0\n' '' journal --weave 1 files no_key
    printf x >files/cone-002.frames
    gives 'a run beside other files' 1 'cone 0 events 0 n0 0 reports 0 open\n' \
        'sound: cone-002: file 0 is broken at byte 0\n' sound files
    rm files/cone-002.* && printf "$head"'\1\0\0\0\0\0' >files/cone-000.journal
    gives 'a run of which one cone was not made' 1 'cone 0 events 0 n0 0 reports 0 open\n' \
        'sound: cone-001: cone not made\n' sound files
    rm files/cone-001.*
    gives 'the same without its files' 1 'cone 0 events 0 n0 0 reports 0 open\n' \
        'sound: cone-001: cone not made\n' sound files
    empty_cones files 000
    gives 'a run of which no cone was made' 1 '' 'sound: cone-000: cone not made\n' sound files
    rm files/*
    gives 'an empty directory' 1 '' 'sound: files: there are no files of a cone\n' sound files
    rm -r files
}

# Writes a frame of one piece: its number of slots, its word of run ends, and its slots.
one_block() { printf '\0\0\0\0\0\40\0\0'"$1"'\0\0\0'"$2"'\0\0\0\0\0\0\0'"$3" >files/cone-000.frames; }

# frame_breaks NAME AT: the file of frames is left at this byte.
frame_breaks() { gives "$1" 1 '' "sound: cone-000: file 2 is broken at byte $2\n" sound files; }

# The files of a cone behind its first flush, twelve keys 1, of which the frame of level 1 counts four.
check_frames() {
    local key='\1\0\0\0\0\0\0\0' nothing='\0\0\0\0\0\0\0\0' keys wrong='sound: cone-000:'
    local slot='\54\313\302\64\374\274\126\0' digit='\2\0\0\0\0\0\0\0' wide='\2\0\0\0\0\0\0\4'
    local run zeros='\0\0\0\0\0\0\0'
    has python3 || return
    keys="$key$key$key$key" && mkdir files
    printf 'LERTJ\1\0\0\15\0\0\0\40\0\0\0\4\0\0\0\10\0\0\0\3\2\2\0\0\0\0\0' >files/cone-000.journal
    printf '\1\110\0\0\0'"$nothing$keys$keys"'\1\50\0\0\0'"$nothing$keys"'\0' >>files/cone-000.journal
    printf 'LERTL\1\0\0\1\40\0\0\0\1\14\0\0\0\0\0\0\0\40\0\0\0\0\0\0\0'"$key"'\1\0\0\0\0\0\0\0' >files/cone-000.log
    one_block '\3' '\4' "$slot$digit$slot"
    gives 'files of twelve keys' 0 'cone 0 events 12 n0 12 reports 0 open\n' '' sound files
    one_block '\2' '\2' "$slot$slot"
    frame_breaks 'a frame that counts two events of four' 0
    one_block '\21' '\4' "$slot$digit$slot"
    frame_breaks 'a frame of more slots than two for each event of a bin' 8
    one_block '\3' '\5' "$slot$digit$slot"
    frame_breaks 'a frame of more run ends than runs' 12
    one_block '\3' '\10' "$slot$digit$slot"
    frame_breaks 'a run end behind the last slot' 12
    one_block '\3' '\4' "$slot$nothing$slot"
    frame_breaks 'a counter without digits' 20
    one_block '\4' '\10' "$slot$key$digit$slot"
    frame_breaks 'a counter with a leading digit 0' 20
    one_block '\3' '\4' "$slot$wide$slot"
    frame_breaks 'a slot of more bits than a remainder' 28
    one_block '\3' '\4' "$slot$digit"
    frame_breaks 'a frame that ends before its last slot' 36
    one_block '\3' '\4' "$key$digit$key"
    frame_breaks 'a greater digit without a 0 before it' 28
    one_block '\4' '\10' "$slot$nothing$nothing$wide"
    frame_breaks 'a slot of more bits behind a group that is none' 44
    run='\5'"$zeros"'\5'"$zeros"'\3'"$zeros"'\7'"$zeros"'\11'"$zeros"'\13'"$zeros"'\15\0\0\0\0\0\0'
    one_block '\7' '\100' "$run"'\0'
    frame_breaks 'a remainder below the one before it' 36
    one_block '\7' '\100' "$run"'\4'
    frame_breaks 'a slot of more bits among the nine that a group may have' 68
    one_block '\4' '\10' "$key$digit$slot$slot"
    gives 'a frame of other keys' 1 '' \
        "$wrong the frame of the positions above 0 up to 4 doesn't hold their counts\n" sound files
    rm -rf files
}

# names_place OFFSET FIRST: a log of two flushes over sixteen keys 1, whose second record names this place and position
# of the journal, two numbers below 256 in octal.
names_place() {
    local first='\40\0\0\0\0\0\0\0\1\0\0\0\0\0\0\0' end='\1\0\0\0\0\0\0'
    printf 'LERTL\1\0\0\1\40\0\0\0\1\14\0\0\0\0\0\0\0'"$first$end" >files/cone-000.log
    printf '\1\40\0\0\0\1\20\0\0\0\0\0\0\0'"\\$1"'\0\0\0\0\0\0\0'"\\$2"'\0\0\0\0\0\0\0'"$end"'\0' >>files/cone-000.log
}

# Behind sixteen keys level 0 begins at position 9, with the second packet of eight, at byte 109.
check_places() {
    local key='\1\0\0\0\0\0\0\0' nothing='\0\0\0\0\0\0\0\0' slot='\54\313\302\64\374\274\126\0' packet
    local wrong='sound: cone-000: the log'"'"'s record of 16 events names byte'
    has python3 || return
    packet='\1\110\0\0\0'"$nothing$key$key$key$key$key$key$key$key" && mkdir files
    printf 'LERTJ\1\0\0\21\0\0\0\40\0\0\0\4\0\0\0\10\0\0\0\3\2\2\0\0\0\0\0'"$packet$packet"'\0' \
        >files/cone-000.journal
    one_block '\3' '\4' "$slot"'\6\0\0\0\0\0\0\0'"$slot"
    names_place 155 11
    gives 'a log that names the journal where level 0 begins' 0 'cone 0 events 16 n0 16 reports 0 open\n' '' sound files
    names_place 40 1
    gives 'a log that names the record before' 1 '' \
        "$wrong 32 and position 1 of the journal, and not 109 and 9\n" sound files
    names_place 155 1
    gives 'a log that names another position' 1 '' \
        "$wrong 109 and position 1 of the journal, and not 109 and 9\n" sound files
    rm -rf files
}

# --- measures

# A command that ends with status 3, and below it one with the words of a check of the tests of lert_io.
measured() {
    "$top/tools/build/measure" -- bash -c \
        '(exec -a rattle bash -c "sleep 3; true" rattle check --crate-name lert_io src/lib.rt --test); exit 3' >"$work/tables"
    local status=$?
    sed -n 's/^\(| `lert_[a-z]*` |\).*/\1/p; s/.*\(Status [0-9]*\).*/\1/p' "$work/tables"
    return $status
}

check_measure() {
    has python3 || return
    gives 'measures what a command does' 3 'Status 3\n| `lert_io` |\n' '' measured
    gives 'measures no crate that is not there' 1 '' 'measure: crates.txt has no lert_nowhere\n' \
        "$top/tools/build/measure" --functions lert_nowhere
    gives 'tells no steps of a crate that is not there' 1 '' 'goals: crates.txt has no lert_nowhere\n' \
        "$top/tools/build/goals" lert_nowhere
}

# --- README.md and docs

references() { "$top/tools/build/references" "$@"; }

# A small repository, whose crates stand one on another.
check_rooms() {
    local crate below='' repeated='| crate | clauses | repeated | ensures | repeated |\n|---|---|---|---|---|\n'
    repeated+='| lert_a | 2 | 1 | 1 | 0 |\n| lert_b | 2 | 1 | 1 | 0 |\n| all | 4 | 2 | 2 | 0 |\n'
    repeated+='2 times: requires a ≤ b\n'
    mkdir -p rooms/tools/build && cp "$top"/tools/build/{references,contracts.py,crates.py} rooms/tools/build &&
        : >rooms/crates.txt
    for crate in lert_{a..h}; do
        mkdir -p rooms/crates/"$crate"/{src,specs} && echo "$crate:$below" >>rooms/crates.txt
        below=" $crate"
    done
    echo 'lert_h_tests: lert_h' >>rooms/crates.txt
    gives 'eight crates in a chain, and one of tests' 0 '' '' rooms/tools/build/references
    echo 'lert_i: lert_h' >>rooms/crates.txt
    gives 'finds nine crates in a chain' 1 "crates.txt: 9 crates in a chain: $(echo lert_{a..i})\n" '' \
        rooms/tools/build/references
    sed -i '$d' rooms/crates.txt
    printf 'abbrev pub two : ℕ\ntwo = 2\n' | tee rooms/crates/lert_b/specs/{One,Two}.antt >rooms/crates/lert_c/specs/One.antt
    gives 'finds a name of two files of specs' 1 'lert_b: two is defined in specs/One.antt and specs/Two.antt\n' '' \
        rooms/tools/build/references
    rm rooms/crates/lert_b/specs/Two.antt
    printf '//! It stands on lert_a.\n// As lert_nowhere does.\n' >rooms/crates/lert_b/src/lib.rt
    gives 'finds a crate that a comment alone has' 1 "lert_b/src/lib.rt, line 2: lert_nowhere isn't there\n" '' \
        rooms/tools/build/references
    printf 'fn one()\n    requires low { a ≤\n        b }\n    ensures { c ≡ d }\n{\n}\n' >rooms/crates/lert_a/src/lib.rt
    printf 'pub fn two()\n    requires { a ≤ b }\n    ensures same { c ≡ e }\n{\n}\n' >rooms/crates/lert_b/src/lib.rt
    gives 'counts clauses of other functions' 0 "$repeated" '' \
        rooms/tools/build/contracts.py --repeated --most 1 lert_a lert_b
}

check_documents() {
    local name
    has python3 || return
    check_rooms
    # The last one is made of this process's number, so that no file here has it.
    for name in tools/kees lert_nowhere lert_run stale_$$; do
        printf '`tools/keys`,\n`%s`\n' "$name" >stale.md
        gives "finds $name" 1 "stale.md, line 2: $name isn't there\n" '' references stale.md
    done
    echo 'What lert_run was.' >stale.md
    gives 'finds a crate without a mark' 1 "stale.md, line 1: lert_run isn't there\n" '' references stale.md
    gives 'names in README.md and docs' 0 '' '' references
}

