# Checks the pictures of a run. tools/check reads it.

picture() { "$top/tools/picture" "$@"; }

# A run over 60,000 lines, of which a thousand come often.
drawn_run() {
    rm -rf d names && lert gen --events 60000 >packed && keys unpack packed | sed 's/^/<key> /' >drawn
    keys pack --hash --names names --from drawn packed && lert run --cone-bits "$1" d packed >report &&
        keys label --names names <report >labelled
}

# Compares what a page says with a plain count: how many events and reports there are, how many came with the event at
# which they were due, and the heaviest names.
judged() {
    python3 - "$1" <<'END'
import re, sys
from collections import Counter
from xml.etree import ElementTree

page = open("d/picture.html").read()
several = [ElementTree.fromstring(text) for text in re.findall("<svg.*?</svg>", page, re.DOTALL)]
texts = [["".join(text.itertext()) for text in one.findall(".//{*}text")] for one in several]
counts, due = Counter(), {}
for at, line in enumerate(open("drawn"), 1):
    counts[line.strip()] += 1
    if counts[line.strip()] == 24:
        due[line.strip()] = at
labelled = [line.strip().split(" ", 2) for line in open("labelled") if line[0].isdigit()]
reports = {name: int(at) for _, at, name in labelled}
heaviest = [line for line in texts[0] if line.startswith("<key>")]
# Of one cone there are no bars.
assert len(several) == (2 if sys.argv[1] == "1" else 3), len(several)
assert f"60,000 events, {len(due):,} keys reported that came 24 times, {sys.argv[1]} cone" in page
assert [counts[name] for name in heaviest] == [count for _, count in counts.most_common(20)], heaviest
assert texts[0][-20:] == [str(counts[name]) for name in heaviest], texts[0]
assert all(link.startswith(("#", "data:")) for link in re.findall(r'(?:src|href)="([^"]*)', page))
if sys.argv[1] == "1":
    delays = [at - due[name] for name, at in reports.items()]
    late = f"{delays.count(0):,} of {len(due):,} came at once, and the latest\n{max(delays):,} events later."
    assert 0 < delays.count(0) < len(due) and late in page, late
END
}

pictured() { drawn_run "$1" && picture --names names d && judged $((1 << $1)); }

# The same as one picture, twice: how wide it is, and whether the bars of twenty keys stand in it. Then what becomes of a
# picture of one's own.
drawn_as_png() {
    picture --png --names names d && picture --png --names names d && python3 - <<'END' || return
from itertools import groupby
from matplotlib.image import imread

rows = (imread("d/picture.png")[:, :, :3] * 255).round().astype(int).tolist()
print(len(rows[0]), sum(is_bar for is_bar, _ in groupby(row.count([44, 109, 164]) > 100 for row in rows)))
END
    printf '\211PNG\r\n\32\n one of mine' >mine.png && rm d/picture.png && picture --png --out mine.png d
}

# A run that was refused at the end of its trace: what the page says is what stands in the logs, a plain count of the
# journals, and what a recovery prints.
pictured_stopped() {
    local logged often recovered
    rm -rf d && { lert gen --events 30000 && printf x; } >packed
    lert run --threshold 10 --bins 2 --cone-bits 1 --packet 64 d packed
    picture d || return
    logged=$(watch d 2>"$work/kept_err" | grep -c .)
    often=$(for cone in 0 1; do journal --keys d/cone-00$cone.journal; done | sort | uniq -c | awk '$1 >= 10' | wc -l)
    recovered=$(lert recover d | sed -n 's/^total.* //p')
    [ "$logged" -lt "$recovered" ] && [ "$recovered" -lt "$often" ] && tr '\n' ' ' <d/picture.html |
        grep -q "so far: $logged keys .* By the journals $often keys .* and a recovery reports $recovered of them"
}

# What is left where there is no picture.
left_by_picture() {
    local status
    rm -f d/picture.html && picture "$@"
    status=$?
    ls d | grep picture
    return $status
}

check_picture() {
    local PATH=$PATH told key
    has python3 || return
    check_spared
    rm -rf d && mkdir -p hidden && echo 'raise ImportError' >hidden/matplotlib.py
    told="picture: $(hint_of matplotlib)\n"
    gives 'a picture without matplotlib' 2 '' "$told" env PYTHONPATH=hidden "$top/tools/picture" d
    python_with matplotlib || return
    gives 'a picture of sixteen cones' 0 '' '' pictured 4
    has /proc/locks && gives 'a picture of a stopped run' 0 '' \
        "lert: trace 0 bad at 240008\nlert: trace 0 is packed, which ends inside a key, $cut\n" pictured_stopped
    gives 'a picture of one cone' 0 '' '' pictured 0
    gives 'a picture without a browser' 2 '924 20\n' \
        'picture: mine.png is not replaced, since what stands there is no picture of this tool\n' drawn_as_png
    if mknod page_device c 1 3 2>"$work/said"; then
        gives 'draws behind a link and into a device' 0 \
            '<title>LERT: d</title>\nsymbolic link\ncharacter special file\n' '' drawn_into
    else
        echo "skipped: no device can be made here"
    fi
    key=$(keys unpack packed | sort | uniq -c | sort -n | tail -n 1 | sed 's/.* //')
    echo a | keys pack --hash --names other packed
    gives 'a picture by names of another trace' 1 '' \
        "picture: d/cone-000.journal: key $key has no name in other, which has those of another trace\n" \
        left_by_picture --names other d
    gives 'a picture of no run' 1 '' 'picture: nowhere: there are no logs of a run: no cone-000.journal\n' \
        picture nowhere
    printf '\3' | dd of=d/cone-000.log bs=1 seek=13 conv=notrunc status=none
    gives 'a picture of a broken log' 1 '' 'picture: d/cone-000.log, byte 13: the file leaves its format\n' \
        left_by_picture d
}
