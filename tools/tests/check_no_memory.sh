# Checks what runs and recoveries do that get no memory. tools/check reads it.

# Each call for memory of small runs and recoveries fails once, and no packet calls for any.
check_no_memory() {
    has python3 cc || return
    gives 'runs and recoveries that are refused memory' 0 '' '' \
        passes "$top/tools/tests/no_memory" "$("$top/tools/lib/program")"
}
