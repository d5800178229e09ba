# Checks that the tools read traces, journals and frames with weights, by bytes that were written down by hand.
# tools/check reads it.

# bytes HEX..: these bytes.
bytes() { printf "$(tr -d ' \n' <<<"$*" | sed 's/../\\x&/g')"; }

# item KEY WEIGHT: those of a key below 256, in two hexadecimal digits, and its weight.
item() { echo "$1 00 00 00 00 00 00 00 $2"; }

# times N HEX: the same so many times.
times() { printf "$2%.0s" $(seq "$1"); }

trace_of() { bytes 4c 45 52 54 02 00 00 00 "$@"; }

check_weighed_traces() {
    local left='the trace leaves its format\n'
    trace_of "$(item 07 01)" ff ff ff ff ff ff ff ff ff >weighed
    gives 'unpacks keys and weights' 0 '7 1\n18446744073709551615 255\n' '' keys unpack --weights weighed
    gives 'unpacks keys that have weights' 0 '7\n18446744073709551615\n' '' keys unpack weighed
    gives 'unpacks weights of keys that have none' 0 '7 1\n7 1\n7 1\n' '' keys unpack --weights sevens
    gives 'routes keys and weights' 0 '0 7 1\n0 18446744073709551615 255\n' '' journal --route 1 --weights weighed
    gives 'routes keys that have weights' 0 '0 7\n0 18446744073709551615\n' '' journal --route 1 weighed
    gives 'packs over a trace with weights' 0 '4c45525401000000\n0800000000000000\n' '' \
        eval 'cp weighed packed && pack_bytes < <(echo 8)'
    trace_of >bad
    gives 'unpacks no keys with weights' 0 '' '' keys unpack bad
    trace_of "$(item 07 01)" 08 00 00 00 >bad
    gives 'unpacks no cut key with a weight' 1 '7\n' "keys: bad, byte 17: $left" keys unpack bad
    gives 'routes no cut key with a weight' 1 '0 7\n' 'journal: the file leaves its format at byte 17\n' \
        journal --route 0 bad
    trace_of "$(item 07 01)" 08 00 00 00 00 00 00 00 >bad
    gives 'unpacks no key without its weight' 1 '7\n' "keys: bad, byte 17: $left" keys unpack bad
    trace_of "$(item 07 00)" 08 00 00 00 >bad
    gives 'unpacks no weight of 0' 1 '' "keys: bad, byte 16: $left" keys unpack bad
    gives 'routes no weight of 0' 1 '' 'journal: the file leaves its format at byte 16\n' journal --route 0 bad
    trace_of "$(item 07 01)" "$(item 08 00)" "$(item 09 01)" >bad
    gives 'unpacks no later weight of 0' 1 '7\n' "keys: bad, byte 25: $left" keys unpack bad
    bytes 4c 45 52 54 03 00 00 00 >bad
    gives 'unpacks no version 3' 1 '' "keys: bad, byte 4: $left" keys unpack bad
    bytes 4c 45 52 54 02 >bad
    gives 'unpacks no header that ends behind its version' 1 '' "keys: bad, byte 5: $left" keys unpack bad
    bytes 4c 45 52 54 02 00 01 00 >bad
    gives 'unpacks no other byte behind the version' 1 '' "keys: bad, byte 6: $left" keys unpack bad
}

# The numbers of a journal's header: threshold, room, base, packet, bins, ratio, levels, cone bits, and the cone.
numbers='03000000 20000000 04000000 08000000 03020200 00000000'

# journal_of NUMBERS HEX..: a journal with weights, and these bytes behind its header.
journal_of() { bytes 4c 45 52 54 4a 02 00 00 "$1" "${@:2}"; }

# packet_of LENGTH HEX..: a packet of worker and trace 0, its length in two hexadecimal digits.
packet_of() { echo "01 $1 00 00 00 00 00 00 00 00 00 00 00 ${*:2}"; }

# journal_breaks NAME OUT AT: the file bad leaves its format at this byte, behind these lines.
journal_breaks() { gives "$1" 1 "$2" "journal: the file leaves its format at byte $3\n" journal bad; }

check_weighed_journals() {
    local seven one two_cones='03000000 20000000 04000000 08000000 03020201 00000000'
    local few='03000000 20000000 04000000 01000000 03020200 00000000'
    seven=$(item 07 01) one=$(item 01 01)
    journal_of "$numbers" "$(packet_of 23 "$seven" "$seven" "$seven")" 00 >weighed_packet
    gives 'the bytes of a journal with weights' 0 '73\n' '' stat -c %s weighed_packet
    gives 'reads a packet with weights' 0 '0 0 3\n' '' journal weighed_packet
    gives 'reads its keys and weights' 0 '7 1\n7 1\n7 1\n' '' journal --keys --weights weighed_packet
    gives 'reads weights of a packet without them' 0 '7 1\n7 1\n7 1\n' '' journal --keys --weights packet
    head -c 72 weighed_packet >bad
    journal_breaks 'a packet with weights and no gate behind it' '0 0 3\n' 72
    journal_of "$numbers" "$(packet_of 23 "$seven" "$(item 07 00)" "$seven")" 00 >bad
    journal_breaks 'a weight of 0' '' 62
    journal_of "$two_cones" "$(packet_of 1a "$(item 00 00)" "$one")" 00 >bad
    journal_breaks 'a weight of 0 before a key of another cone' '' 53
    journal_of "$two_cones" "$(packet_of 1a "$(item 01 00)" "$(item 00 00)")" 00 >bad
    journal_breaks 'a key of another cone and of weight 0' '' 45
    journal_of "$two_cones" "$(packet_of 1a "$(item 00 01)" "$one")" 00 >bad
    journal_breaks 'a key of another cone behind one with a weight' '' 54
    journal_of "$numbers" "$(packet_of 10 07 00 00 00 00 00 00 00)" 00 >bad
    journal_breaks 'a packet of a key without its weight' '' 33
    journal_of "$numbers" "$(packet_of 08)" 00 >bad
    journal_breaks 'a packet without items' '' 33
    journal_of "$few" "$(packet_of 2c "$(times 4 "$seven")")" 00 >bad
    gives 'four times the keys of a packet' 0 '0 0 4\n' '' journal bad
    journal_of "$few" "$(packet_of 35 "$(times 5 "$seven")")" 00 >bad
    journal_breaks 'more than four times the keys of a packet' '' 33
    bytes 4c 45 52 54 4a 01 00 00 "$numbers" "$(packet_of 23 "$(times 3 "$seven")")" 00 >bad
    journal_breaks 'weights in a journal of version 1' '' 33
    bytes 4c 45 52 54 4a 03 00 00 "$numbers" 00 >bad
    journal_breaks 'a journal of version 3' '' 5
}

# Journals with and without weights beside traces of both kinds.
check_weighed_weaves() {
    local trace three='cone 0 packets 1 keys 3\n' other='journal: cone 0: trace 0 has other keys\n'
    trace_of "$(times 3 "$(item 07 01)")" >weighed
    mkdir files && cp packet files/cone-000.journal
    gives 'a weave of keys that weigh 1' 0 "$three" '' journal --weave 1 files weighed
    cp weighed_packet files/cone-000.journal
    for trace in sevens weighed; do
        gives "a weave with weights of $trace" 0 "$three" '' journal --weave 1 files $trace
    done
    trace_of "$(times 2 "$(item 07 01)")" "$(item 07 02)" >weighed
    gives 'a weave with another weight' 1 '' "$other" journal --weave 1 files weighed
    rm -r files
}

# log_of HEX..: a log of these records.
log_of() { bytes 4c 45 52 54 4c 01 00 00 "$@" 00 >files/cone-000.log; }

# closed_behind N KEY AT: the record of a closing behind so many events, all in the first packet, with one report, in two
# hexadecimal digits each.
closed_behind() {
    local zeros='00 00 00 00 00 00 00'
    echo "01 2f 00 00 00 02 $1 $zeros 20 $zeros 01 $zeros 00 00 01 00 00 00 $2 $zeros $3 $zeros"
}

# reports_of LOOK ITEM..: these reports are made while the events come, and as many behind the closing.
reports_of() {
    local length
    length=$(printf %02x $((8 + 9 * ($# - 1))))
    journal_of "$numbers" "$(packet_of "$length" "${@:2}")" 00 >files/cone-000.journal
    gives "the reports while $(($# - 1)) events come" 0 "$1" '' sound --reports look files
    gives 'those behind the closing' 0 "$1" '' sound --reports closing files
}

check_weighed_reports() {
    local fillers eleven said columns='cone key count first reached reported name\n'
    local little='03000000 01000000 04000000 08000000 03020200 00000000'
    mkdir files && : >files/cone-000.frames && log_of
    reports_of '7 1\n' "$(item 07 03)"
    mapfile -t fillers < <(for key in {17..30}; do item "$(printf %02x "$key")" 01; done)
    eleven=("${fillers[@]:0:11}")
    reports_of '7 16\n' "$(item 07 01)" "${eleven[@]}" "$(item 07 02)" "${fillers[@]:11:3}"
    reports_of '7 2\n' "$(item 07 01)" "$(item 07 02)"
    log_of "$(closed_behind 02 07 02)"
    gives 'files of two keys with weights' 0 'cone 0 events 2 n0 2 reports 1 closed\n' '' sound files
    said="cone 0 events 2 of 71 weight 3 of 96 reports 1 closed\n${columns}0 7 3 1 2 2\n"
    gives 'tells of a report by weights' 0 "$said" '' "$top/tools/report" files
    log_of "$(closed_behind 02 07 01)"
    gives 'a report before its weights add up' 1 '' \
        "sound: cone-000: the log's reports aren't those of 2 events\n" sound files
    log_of
    journal_of "$little" "$(packet_of 1a "$(item 07 01)" "$(item 08 02)")" 00 >files/cone-000.journal
    gives 'as much weight as there is room for' 0 'cone 0 events 2 n0 0 reports 0 open\n' '' sound files
    journal_of "$little" "$(packet_of 1a "$(item 07 02)" "$(item 08 02)")" 00 >files/cone-000.journal
    gives 'more weight than there is room for' 1 '' 'sound: cone-000: file 0 is broken at byte 33\n' sound files
    journal_of "$little" "$(packet_of 11 "$(item 07 02)")" "$(packet_of 11 "$(item 08 02)")" 00 >files/cone-000.journal
    gives 'more weight in two packets' 1 '' 'sound: cone-000: file 0 is broken at byte 55\n' sound files
    rm -r files
}

# The files of a cone behind its first flush: twelve keys 1, of which the first four weigh 255 each and stand in a frame.
# So many keys make counts from 4 to 1,020.
check_weighed_frames() {
    local slot='\54\313\302\64\374\274\126\0' zeros='\0\0\0\0\0\0' wrong='sound: cone-000:' eight
    local many='d0070000 20000000 04000000 08000000 03020200 00000000' four
    local full='ff030000 01000000 04000000 08000000 03020200 00000000'
    mkdir files && four=$(times 4 "$(item 01 01)") && eight="$(times 4 "$(item 01 ff)") $four"
    log_of 01 20000000 01 0c00000000000000 2000000000000000 0100000000000000 01 00 00 00000000
    journal_of "$many" "$(packet_of 50 "$eight")" "$(packet_of 2c "$four")" 00 >files/cone-000.journal
    one_block '\3' '\4' "$slot"'\372\3'"$zeros$slot"
    gives 'files of twelve keys with weights' 0 'cone 0 events 12 n0 12 reports 0 open\n' '' sound files
    one_block '\3' '\4' "$slot"'\371\3'"$zeros$slot"
    gives 'a frame of other counts' 1 '' \
        "$wrong the frame of the positions above 0 up to 4 doesn't hold their counts\n" sound files
    one_block '\3' '\4' "$slot"'\373\3'"$zeros$slot"
    frame_breaks 'a frame that four keys are too few for' 0
    one_block '\3' '\4' "$slot"'\1\0'"$zeros$slot"
    frame_breaks 'a frame that three keys make' 0
    one_block '\2' '\2' "$slot$slot"
    frame_breaks 'a frame that four keys are too many for' 0
    one_block '\40' '\4' "$slot"'\372\3'"$zeros$slot"
    frame_breaks 'a frame of as many slots as a bin may have, and without them' 12
    one_block '\41' '\4' "$slot"'\372\3'"$zeros$slot"
    frame_breaks 'a frame of more slots than four for each event of a bin' 8
    # Of 1,023 in all the frame has 1,020, and the first packet four more.
    journal_of "$full" "$(packet_of 50 "$eight")" 00 >files/cone-000.journal
    one_block '\3' '\4' "$slot"'\372\3'"$zeros$slot"
    gives 'more weight than there is room for, with the frames' 1 '' "$wrong file 0 is broken at byte 33\n" sound files
    rm -r files
}

# Behind sixteen keys level 0 begins with the second packet of eight, which stands at byte 117 where keys have weights.
check_weighed_places() {
    local slot='\54\313\302\64\374\274\126\0' eight wrong='sound: cone-000: the log'"'"'s record of 16 events names byte'
    eight=$(packet_of 50 "$(times 8 "$(item 01 01)")") && mkdir files
    journal_of '11000000 20000000 04000000 08000000 03020200 00000000' "$eight" "$eight" 00 >files/cone-000.journal
    one_block '\3' '\4' "$slot"'\6\0\0\0\0\0\0\0'"$slot"
    names_place 165 11
    gives 'a log that names the weights where level 0 begins' 0 'cone 0 events 16 n0 16 reports 0 open\n' '' sound files
    names_place 155 11
    gives 'a log that names the place of keys without weights' 1 '' \
        "$wrong 109 and position 9 of the journal, and not 117 and 9\n" sound files
    rm -r files
}

# causes_of AT: what ./lert tells behind a run of the trace `bad`, which leaves its format at this byte.
causes_of() { "$top/tools/lib/causes" 4 "lert: trace 0 bad at $1" run d bad; }

check_weighed_causes() {
    local cut='which ends inside a key, as the trace of a refused input or a cut copy does'
    trace_of "$(item 07 01)" 08 00 00 00 00 00 00 00 >bad
    gives 'tells of a key without its weight' 0 '' "lert: trace 0 is bad, $cut\n" causes_of 17
    trace_of "$(item 07 00)" >bad
    gives 'tells of a weight of 0' 0 '' 'lert: trace 0 is bad, where a key has the weight 0\n' causes_of 16
    gives 'tells of a version' 0 '' "lert: trace 0 is bad, a trace of version 2, which this program doesn't read\n" causes_of 4
}

# bad_weights NAME AT CAUSE HEX..: a run of a trace of these bytes behind its first four is refused there.
bad_weights() {
    bytes 4c 45 52 54 "${@:4}" >bad
    gives "$1" 4 '' "lert: trace 0 bad at $2\nlert: trace 0 is bad, $3\n" run bad
}

check_bad_weights() {
    local two='02 00 00 00' zero='where a key has the weight 0' inside="which ends inside a key, $cut" version
    bad_weights 'a weight of 0' 16 "$zero" $two "$(item 07 00)" "$(item 08 01)"
    bad_weights 'a weight of 0 at the end' 25 "$zero" $two "$(item 07 01)" "$(item 08 00)"
    bad_weights 'a cut key behind one with a weight' 17 "$inside" $two "$(item 07 01)" 08 00 00 00
    bad_weights 'a cut key behind a weight of 0' 16 "$zero" $two "$(item 07 00)" 08 00 00 00
    bad_weights 'a key without its weight' 8 "$inside" $two 07 00 00 00 00 00 00 00
    for version in 00 03 05; do
        bad_weights "a trace of version $version" 4 \
            "a trace of version ${version#0}, which this program doesn't read" $version 00 00 00 "$(item 07 01)"
    done
}

# Traces with weights: reports, beside a trace without them too, and as much weight as a cone takes.
check_weighed_runs() {
    local said='cone 0 events 3 reports 1 closed\n7 2\ntotal events 3 reports 1\n'
    trace_of "$(item 07 01)" "$(item 07 02)" "$(item 08 02)" >weighed
    gives 'a trace with weights' 0 "$said" '' run weighed
    gives 'a trace with weights from a pipe in pieces' 0 "$said" '' run_in_pieces weighed
    has python3 && gives 'the weights of its journal' 0 '7 1\n7 2\n8 2\n' '' journal --keys --weights d/cone-000.journal
    trace_of "$(item 07 ff)" >weighed
    gives 'a weight above the threshold' 0 'cone 0 events 1 reports 1 closed\n7 1\ntotal events 1 reports 1\n' '' \
        run weighed
    trace_of "$(times 8 "$(item 07 02)")" "$(item 08 20)" >weighed
    said='cone 0 events 9 reports 2 closed\n7 2\n8 9\ntotal events 9 reports 2\n'
    gives 'as much weight as a cone takes' 0 "$said" '' run_long 3 3 2 4 2 0 16 8 weighed
    trace_of "$(times 8 "$(item 07 02)")" "$(item 08 21)" >weighed
    gives 'more weight than a cone takes' 13 '' 'lert: cone 0 weight full at 16 plus 33\n' \
        run_long 3 3 2 4 2 0 16 8 weighed
    trace_of "$(item 07 02)" >weighed
    rm -rf d
    gives 'a trace with weights and one without' 0 \
        'cone 0 events 4 reports 1 closed\n7 2\ntotal events 4 reports 1\n' '' \
        lert run --threshold 3 --cone-bits 0 --workers 1 d weighed sevens
}

# The sizes of frames and of packets, and which counts a bin may have, by the table of these cases.
sizes() {
    python3 - "$top/tools" <<'END'
import sys
sys.path.insert(0, sys.argv[1])
from lib.definitions import levels_of
from lib.formats import Header
from lib.slots import cost, frame_len

header = Header(3, 32, 4, 8, 3, 2, 2, 0, 0, 2)
levels = levels_of(header)
print(*(frame_len(levels.span(level), version) for version in (1, 2) for level in (1, 2)))
print(*(levels.frame_place(version, 2, 0) for version in (1, 2)))
print(header.most_payload(), header._replace(version=1).most_payload())
print(*(cost(2, count) for count in (1, 2, 255, 256, 510, 511)), *(cost(1, count) for count in (1, 256)))
END
}

check_weights() {
    has python3 || return
    check_weighed_traces
    check_weighed_journals
    check_weighed_weaves
    check_weighed_reports
    check_weighed_frames
    check_weighed_places
    check_weighed_causes
    gives 'sizes with and without weights' 0 '148 276 276 540\n592 1104\n296 264\n1 1 1 2 2 3 1 256\n' '' sizes
}
