# Checks that what reads metrics takes those of runs and of a service, with the values that they have. tools/check reads
# it.

# read_metrics FILE: the values of a file of metrics, one a line, sorted: by promtool's rules as far as these metrics
# may break them, and by the parser of Debian's python3-prometheus-client, where that is here.
read_metrics() {
    python3 - "$1" <<'END'
import re, sys

NAME = re.compile(r"[a-z_:][a-z0-9_:]*")
LABEL = re.compile(r'([a-z_]+)="((?:[^"\\\n]|\\[\\n"])*)"(,|$)')
ESCAPES = {r"\\": "\\", r"\n": "\n", r"\"": '"'}

def labels_of(text):
    found, at = {}, 0
    while at < len(text):
        label = LABEL.match(text, at)
        assert label and label[1] not in found, text
        found[label[1]] = re.sub(r'\\[\\n"]', lambda one: ESCAPES[one[0]], label[2])
        at = label.end()
    return tuple(sorted(found.items()))

def values_in(text):
    """Each family has its help, its type and its values, one after the other, and comes once."""
    assert text.endswith("\n")
    values, kinds, name, told = {}, {}, "", ""
    for line in text.removesuffix("\n").split("\n"):
        if line.startswith("# HELP "):
            told, what = line[7:].split(" ", 1)
            assert NAME.fullmatch(told) and told not in kinds and what.endswith("."), line
        elif line.startswith("# TYPE "):
            name, kind = line[7:].split(" ")
            assert name == told and kind == ("counter" if name.endswith("_total") else "gauge"), line
            kinds[name] = kind
        else:
            sample = re.fullmatch(r"([a-z_]+)\{(.*)\} (\S+)", line)
            assert sample and sample[1] == name, line
            key = name, labels_of(sample[2])
            assert key not in values, line
            values[key] = float(sample[3])
    return values

text = open(sys.argv[1], newline="").read()
values = values_in(text)
try:
    from prometheus_client.parser import text_string_to_metric_families as families
except ImportError:
    families = None
if families:
    samples = [sample for family in families(text) for sample in family.samples]
    assert {(one.name, tuple(sorted(one.labels.items()))): one.value for one in samples} == values, samples
for (name, labels), value in sorted(values.items()):
    print(name, *(repr(text) for _, text in labels), f"{value:g}" if name != "lert_live_free_bytes" else value > 0)
END
}

# Metrics of a run that is closed, in a directory whose name has what is escaped, of one that stopped, and of none.
metrics_of_runs() {
    rm -rf 'a"b\c'* d && run_long 3 3 2 4 2 0 32 8 too_many 2>"$work/said"
    seq 4 | keys pack packed && lert run --threshold 1 --cone-bits 0 $'a"b\\c\nd\xc3\xa4\x1b' packed >"$work/said" &&
        report --format prometheus $'a"b\\c\nd\xc3\xa4\x1b' d nowhere d >runs.prom && read_metrics runs.prom
}

metrics_of_service() {
    rm -rf l && printf '%s\n' '{"a":"ann"}' no '{"a":"ann"}' '{"a":"bob"}' |
        "$top/tools/live" --json a --threshold 2 --metrics live.prom l >shown 2>said && read_metrics live.prom
}

check_metrics() {
    local PATH=$PATH folder="'"'a"b\\\\c\\nd\303\244\\\\x1b'"'" runs live name
    has python3 || return
    python_with prometheus_client
    runs="lert_closed '0' $folder 1\nlert_closed '0' 'd' 0\nlert_events '0' $folder 4\nlert_events '0' 'd' 64\n"
    runs+="lert_full_ratio '0' $folder 1.5e-05\nlert_full_ratio '0' 'd' 0.901408\nlert_readable $folder 1\n"
    runs+="lert_readable 'd' 1\nlert_readable 'nowhere' 0\nlert_reports '0' $folder 4\nlert_reports '0' 'd' 0\n"
    gives 'metrics of runs' 0 "$runs" '' metrics_of_runs
    for name in 'bad_total 1' 'events 0' 'free_bytes True' 'full_ratio 0' 'lost_total 0' 'records_total 3' 'reports 0' \
        'runs_total 1' 'stalled 0' 'up 0'; do
        live+="lert_live_${name% *} 'l' ${name#* }\n"
    done
    gives 'metrics of a service' 0 "$live" '' metrics_of_service
    has promtool || return
    gives 'promtool takes metrics of runs' 0 '' '' promtool check metrics <runs.prom
    gives 'promtool takes metrics of a service' 0 '' '' promtool check metrics <live.prom
}
