# The words --before PROGRAM at the front of those of a bench, which reads this: a copy of lert_bench of an earlier
# commit, which runs by turns beside the others, so that its times are of the same hour.

before=
if [ "${1-}" = --before ]; then
    before=$(readlink -f "${2-}")
    if [ ! -x "$before" ]; then
        echo "$(basename "$0"): ${2-} is no program" >&2
        exit 1
    fi
    shift 2
fi

# by_before TIMES BEFORE: prints the least of these times by the least of those of the program before, if there is one.
by_before() {
    [ -n "$before" ] || return 0
    awk -v now="$(sort -n "$1" | head -n 1)" -v before="$(sort -n "$2" | head -n 1)" \
        'BEGIN { printf "  by the one before %.3f\n", now / before }'
}
