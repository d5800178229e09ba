# Checks what the README and the tables of claims say. tools/check reads this, whose functions it uses.

commands() { "$top/tools/tests/document_commands" "$@"; }

check_claims() {
    local table='## `lert_bay`\n\n| claim | call | clause |\n|---|---|---|\n'
    printf "$table"'| a sync | `Bay::sync` | `told` |\n' >claims.md
    gives 'finds a clause that no call has' 1 'claims.md, line 5: Bay::sync: has no clause told\n' '' references claims.md
    printf "$table"'| a sync | `Bay::len` | `told` |\n| a bay | `MemBay` | as `Bay` |\n' >claims.md
    gives 'finds the clauses that are there' 0 '' '' references claims.md
    printf "a%.0s" {1..121} >claims.md
    gives 'finds a line that is too long' 1 'claims.md, line 1: more than 120 columns\n' '' references claims.md
}

# The commands of the README print what stands behind them there.
check_commands() {
    printf '```\n$ echo 7\n8\n```\n' >stale.md
    gives 'finds another output' 1 '$ echo 7\nis to print:\n8\nbut prints:\n7\n' '' commands stale.md
    has /usr/share/common-licenses/GPL-3 && gives 'the commands of the README' 0 '' '' commands
    gives 'the commands of docs/LOOK.md' 0 '' '' commands "$top/docs/LOOK.md"
}

check_readme() {
    has python3 || return
    check_claims
    check_commands
}
