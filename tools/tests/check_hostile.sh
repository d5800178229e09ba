# Checks what the program does over bad traces, and over an outside that fails. tools/check reads it.

check_hostile() {
    local program
    has python3 || return
    program=$("$top/tools/lib/program")
    gives 'drawn bad traces' 0 '' '' passes "$top/tools/tests/bad_traces" "$program" --runs 200 --seconds 20
    has cc && gives 'an outside that fails' 0 '' '' passes "$top/tools/tests/hostile" "$program" --places 5 --seconds 20
}
