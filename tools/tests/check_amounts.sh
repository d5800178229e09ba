# Checks what is packed of records with amounts. tools/check reads it.

# The keys and weights of what is packed by these words.
weighed_of() { keys pack "$@" packed && keys unpack --weights packed; }

# packs_amounts NAME DUE FORMAT WORDS..: of a text these words make these items.
packs_amounts() { gives "packs amounts of $1" 0 "$2" '' weighed_of "${@:4}" < <(printf "$3"); }

# How many names there are of records of which some count nothing.
names_of_amounts() {
    rm -f names && printf 'a,0\nb,1\na,0\n' | keys pack --csv 1 --weight 2 --hash --names names packed &&
        keys unpack packed | sed 's/$/ 1/' | keys label --names names | cut -d' ' -f3
    python3 -c 'import sqlite3
print(*sqlite3.connect("names").execute("SELECT count(*) FROM names").fetchone())'
}

length_of() { keys pack "$@" - | wc -c; }

# Amounts of every kind, and the fewest items that make them.
check_amounts() {
    local amount no='the amount is no decimal number up to 4294967295' items='7 1\n8 255\n9 255\n9 1\n10 255\n10 255\n'
    has python3 || return
    items+='11 255\n11 255\n11 90\n7 3\n'
    packs_amounts 'a CSV' "$items" 'key,sum\n7,1\n8,255\n9,256\n10,510\n0,0\n11,600\n7,003\n' --csv key --weight sum
    packs_amounts 'a CSV by the number of the column' "$items" \
        'key,sum\n7,1\n8,255\n9,256\n10,510\n0,0\n11,600\n7,003\n' --csv key --weight 2
    packs_amounts 'a CSV without names' '7 2\n8 5\n' '2,7\n5,8\n' --csv 2 --weight 1
    packs_amounts 'a CSV of which the amount alone is named' '7 2\n8 5\n' 'sum,key\n2,7\n5,8\n' --csv 2 --weight sum
    packs_amounts 'JSON lines' '7 2\n8 255\n8 45\n' '{"sum":2,"key":7}\n{"key":"8","sum":"300"}\n' \
        --json key --weight sum
    packs_amounts 'words' '7 2\n8 5\n' '  2 7\n5\t8 9\n' --field 2 --weight 1
    gives 'packs no amounts' 0 '4c45525402000000\n' '' pack_bytes --field 1 --weight 2 </dev/null
    gives 'packs the greatest amount' 0 "$((8 + 9 * 16843009))\n" '' \
        length_of --field 1 --weight 2 < <(echo 7 4294967295)
    gives 'names nothing that counts nothing' 0 'b\n1\n' '' names_of_amounts
    for amount in -1 +1 1.5 1e3 '' ' 1' 0x1 - 4294967296 18446744073709551617 000000000000000000001; do
        gives "packs no amount '$amount'" 1 '7\ntrace\n' "keys: standard input, line 2: $no\n" \
            left_by_refusal --csv 1 --weight 2 < <(printf '8,1\n9,%s\n10,1\n' "$amount")
    done
    skips 'amounts that are none' "2 line 2: $no" '7\n8\n9\n' '7 1\n7 x\n8 2\n8 -1\n9 3\n' --field 1 --weight 2
    skips 'a number that counts nothing and is none' '1 line 2: no decimal number below 2^64' '7\n9\n' \
        '7 1\nx 0\n9 3\n' --field 1 --weight 2
    skips 'a row without its amount' '1 line 2: the row has no column 2' '7\n8\n' '7,1\n7\n8,1\n' --csv 1 --weight 2
    skips 'a line without its amount' '2 line 2: no field b' '7\n8\n' \
        '{"a":7,"b":1}\n{"a":9}\n{"b":9}\n{"a":8,"b":1}\n' --json a --weight b
    skips 'a line with another amount' '1 line 2: the field b is no text and no number' '7\n8\n' \
        '{"a":7,"b":1}\n{"a":9,"b":null}\n{"a":8,"b":1}\n' --json a --weight b
    skips 'a line without the word of its amount' '1 line 2: the line has no word 2' '7\n8\n' '7 1\n7\n8 1\n' \
        --field 1 --weight 2
    printf 'a,b\n1,2\n' >bad
    gives 'refuses a column of amounts that is not there' 1 '' 'keys: bad, line 1: no column is named c of a|b\n' \
        keys pack --csv 1 --weight c --from bad packed
}

# refuses_weight WHY WORDS..: the words don't go together.
refuses_weight() { gives "refuses ${*:2}" 2 "keys pack: error: $1\n" '' said_last "${@:2}"; }
said_last() {
    local status
    keys pack "$@" packed </dev/null 2>said
    status=$?
    tail -n 1 said
    return $status
}

check_weight_words() {
    has python3 || return
    refuses_weight '--weight goes with --csv, --json, --field or --packets' --weight 1
    refuses_weight 'the weight of a line is one of its words, by its number' --field 1 --weight sum
    refuses_weight 'the weight of packets is bytes' --packets pair --weight packets
    refuses_weight 'words are numbered from 1' --field 1 --weight 0
    refuses_weight 'columns are numbered from 1' --csv sum --weight 0
}
