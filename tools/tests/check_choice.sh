# Checks which program ./lert takes, with which settings a recovery and with how many open files, and that the one in
# dist/ is made of these sources.
# tools/check reads it.

# --- ./lert in a small repository, with stand-ins for the kit and the programs

small_told='lert: running dist/lert-x86_64-linux-gnu, which toy-kit proved and built from these sources\n'
small_builds='lert: proving and building: crate 1 of 2, 0 minutes so far\n'
small_none='rt: no proof\nlert: there is no program to run: lert_low is not proved and built\n'

# A program that says the word, and answers as the proved one where it is asked for nothing.
stand_in() {
    printf '#!/bin/sh\n[ $# -eq 0 ] || { echo %s; exit; }\necho "lert: usage rule 0" >&2\nexit 1\n' "$1" >"$2"
    chmod +x "$2"
}

# What the stand-ins for rt and rattle do: they fail, or rattle builds what is asked for last.
rt_fails() { printf 'echo rt: no proof; exit 1\n' >small/bin/answer; }
rt_builds() {
    printf '%s\n' 'for made; do :; done' 'case $made in *.rlib) mkdir "$made" ;; *) : >"$made" ;; esac' \
        'echo logic=proved functions=1' >small/bin/answer
}

# Or what the gate does, which leaves the program.
rt_passes() {
    printf '[ $1 = ci ] && mkdir -p "%s" && cp bin/program "%s"/lert_program\n' \
        "$work/small/crates/lert_program/out" "$work/small/crates/lert_program/out" >small/bin/answer
}

small_lert() { PATH=$work/small/bin:$PATH small/lert "$@"; }
small_gate() { PATH=$work/small/bin:$PATH small/.ci/run; }
small_release() { PATH=$work/small/bin:$PATH small/tools/build/release; }
small_digest() { PATH=$work/small/bin:$PATH small/tools/build/digest "$@"; }
note_made() { small_digest --made "$1" >"$1.made"; }

make_small() {
    local crate
    rm -rf small && mkdir -p small/bin small/dist small/tools/{build,lib}
    cp "$top/lert" "$top/.ci/run" small/ && cp "$top/tools/lib/program" small/tools/lib/ &&
        cp "$top"/tools/build/{digest,prove,release,crates.py} small/tools/build/
    mkdir small/.ci && mv small/run small/.ci/
    printf 'lert_program: lert_low byteorder # it\nlert_apart:\nlert_low may_wait=1:\n' >small/crates.txt
    for crate in lert_low lert_program lert_apart; do
        mkdir -p small/crates/$crate/src small/crates/$crate/must-fail
        echo "// $crate" >small/crates/$crate/src/lib.rt
    done
    printf '#!/bin/sh\n[ $1 != version ] || { echo toy-kit 1; exit; }\n. "$(dirname "$0")/answer"\n' >small/bin/rt
    cp small/bin/rt small/bin/rattle
    printf '#!/bin/sh\nwhile [ "$1" != -o ]; do shift; done\ncp "$(dirname "$0")/program" "$2"\n' >small/bin/rattle-link
    printf '#!/bin/sh\n' >small/tools/lib/settings
    chmod +x small/bin/rt small/bin/rattle small/bin/rattle-link small/tools/lib/settings
    rt_fails
    stand_in built small/bin/program
    stand_in kept small/dist/lert-x86_64-linux-gnu
    note_made small/dist/lert-x86_64-linux-gnu
}

# What counts in the digest, and what doesn't.
check_digest() {
    local same
    make_small
    same="$(small_digest)\n"
    touch -d 2001-01-01 small/crates/lert_low/src/lib.rt && chmod 600 small/crates/lert_low/src/lib.rt
    echo 'file: src/lib.rt' >small/crates/lert_low/must-fail/a.edit
    echo '// more' >>small/crates/lert_apart/src/lib.rt
    mkdir small/crates/lert_low/out && : >small/crates/lert_low/out/lib.rt
    cp -r small moved
    gives 'the digest of the same sources' 0 "$same" '' small_digest
    gives 'the digest in another folder' 0 "$same" '' moved/tools/build/digest
    rm -rf moved
    differs 'a line ending' "$same" sed -i 's/$/\r/' small/crates/lert_low/src/lib.rt
    differs 'a file that git does not know' "$same" touch small/crates/lert_program/src/more.rt
    differs 'a definition' "$same" mkdir small/crates/lert_low/specs
    differs 'another name' "$same" mv small/crates/lert_low/src/lib.rt small/crates/lert_low/src/low.rt
    differs 'another line of crates.txt' "$same" sed -i 's/may_wait=1/may_wait=2/' small/crates.txt
}

# differs NAME DIGEST COMMAND..: the command makes another digest in the small repository.
differs() {
    local name=$1 same=$2
    make_small
    "${@:3}"
    [ ! -d small/crates/lert_low/specs ] || : >small/crates/lert_low/specs/Lib.antt
    gives "the digest after $name" 1 '' '' eval '[ "$(small_digest)\n" = "$same" ]'
}

check_choice() {
    local kept=small/dist/lert-x86_64-linux-gnu out=small/crates/lert_program/out
    make_small
    gives 'the kept program' 0 'kept\n' "$small_told" small_lert run
    gives 'the kept program, told once' 0 'kept\n' '' small_lert run
    rm -rf "$out" && : >"$out"
    gives 'the kept program, where it cannot be noted' 0 'kept\n' '' small_lert run
    rm -f "$out"
    has python3 || return
    echo >>small/crates/lert_low/src/lib.rt
    gives 'no kept program of other sources' 126 '' "$small_builds$small_none" small_lert run
    make_small && echo >>"$kept"
    gives 'no kept program of other bytes' 126 '' "$small_builds$small_none" small_lert run
    make_small && printf '#!/nowhere\n' >"$kept" && note_made "$kept"
    gives 'no kept program that does not run here' 126 '' \
        "lert: dist/lert-x86_64-linux-gnu doesn't run on this machine\n$small_builds$small_none" small_lert run
    rt_builds
    gives 'what is built in its place' 0 'built\n' \
        "lert: dist/lert-x86_64-linux-gnu doesn't run on this machine\n$small_builds" small_lert run
    stand_in kept "$kept" && note_made "$kept" && rt_fails
    gives 'what was built before what is kept' 0 'built\n' '' small_lert run
    stand_in other "$out/lert_program"
    gives 'nothing else that was built' 0 'kept\n' "$small_told" small_lert run
    rm "$kept"
    gives 'a build that fails' 126 '' "$small_builds$small_none" small_lert run
    gives 'the program after it' 1 '' '' test -e "$out/lert_program"
    rm -rf small
}

# --- the limit of open files

# limited SOFT HARD WORD..: ./lert under these limits, with a program that says its soft one.
limited() {
    local soft=$1 hard=$2
    shift 2
    (ulimit -Sn "$soft" && ulimit -Hn "$hard" && small_lert "$@")
}

check_limits() {
    local out=small/crates/lert_program/out
    make_small
    mkdir -p $out && printf '#!/bin/sh\nulimit -Sn\n' >$out/lert_program
    chmod +x $out/lert_program && note_made $out/lert_program
    gives 'a limit that is enough' 0 '65\n' '' limited 65 900 run d a
    gives 'a limit that is raised for a trace more' 0 '66\n' '' limited 65 900 run d a b
    gives 'a limit that is raised for more cones' 0 '785\n' '' limited 65 900 run --cone-bits 8 d --workers 1 a
    gives 'the same for an option in one word' 0 '785\n' '' limited 65 900 run d a --cone-bits=08
    gives 'a limit of fewer cones' 0 '22\n' '' limited 21 900 run --cone-bits=0 d -- a --cone-bits=8 b
    gives 'a limit that is raised for a recovery' 0 '112\n' '' limited 65 900 recover --cone-bits 5 d
    gives 'a limit that nothing asks for' 0 '30\n' '' limited 30 900 drill --cone-bits 8
    gives 'a hard limit that is too low' 0 '700\n' \
        'lert: 785 files may have to be open at once, and the limit is 700 (ulimit -Hn)\n' \
        limited 65 700 run --cone-bits 8 d a
    rm -rf small
}

check_gate() {
    local kept=small/dist/lert-x86_64-linux-gnu
    make_small
    gives 'a gate that fails' 1 'rt: no proof\n' '' small_gate
    gives 'the program behind it' 0 'kept\n' "$small_told" small_lert run
    rt_passes
    gives 'a gate that passes' 0 '' '' small_gate
    gives 'the program of the gate' 0 'built\n' '' small_lert run
    has python3 || return
    cp "$kept" before && rt_fails && echo >>small/crates/lert_low/src/lib.rt
    gives 'a release that fails' 1 '' "$small_builds${small_none}release: dist/ is as it was\n" small_release
    gives 'the kept program behind it' 0 '' '' cmp before "$kept"
    rt_builds
    gives 'a release' 0 "$(small_digest --made small/bin/program)\n" "$small_builds" small_release
    gives 'the kept program that it leaves' 0 '' '' fault_of_kept small
    rm -rf small
}

# --- the settings of a recovery

# lert_still WORDS..: a recovery by ./lert, and a line where it made or changed something.
lert_still() {
    local before status
    before=$(find . -path './*d*' -exec ls -ld --time-style=+ {} + -type f -exec cksum {} +)
    lert recover "$@"
    status=$?
    [ "$(find . -path './*d*' -exec ls -ld --time-style=+ {} + -type f -exec cksum {} +)" = "$before" ] || echo changed
    return $status
}

# refuses_recovery NAME STATUS LINE WORDS..: a recovery by these words ends so and leaves all files as they are.
refuses_recovery() { gives "a recovery $1" "$2" '' "lert: $3\n" lert_still "${@:4}"; }

# A run of two cones, with other settings than the usual.
run_of_two() { run_long 3 3 2 4 2 1 32 8 three_each; }

check_options() {
    local left_out='lert: settings that are left out are those of the run'
    run_of_two >report
    gives 'a recovery by the settings of the run' 0 "$(cat report)\n" '' lert_still d
    gives 'a recovery by some of them' 0 "$(cat report)\n" '' lert_still --threshold 3 d --cone-bits=01
    gives 'a recovery behind the end of options' 0 "$(cat report)\n" '' lert_still -- d
    refuses_recovery 'by another threshold' 10 "--threshold 4: the run was made with 3\n$left_out" --threshold=4 d
    refuses_recovery 'by the usual settings' 10 \
        "--bins 4: the run was made with 3\nlert: --cone-bits 4: the run was made with 1\n$left_out" \
        d --cone-bits 4 --threshold 3 --bins 4
    refuses_recovery 'by a broken setting' 1 'usage rule 2' --bins 1 d
    refuses_recovery 'by settings that together are broken' 1 'usage rule 11' --ratio 16 --levels 8 --base 65536 d
    refuses_recovery 'by other words' 1 'usage rule 0' d d
    refuses_recovery 'by no UTF-8' 1 'usage rule 0' $'d\xff'
}

check_places_of_runs() {
    rm -rf d && mkdir d
    refuses_recovery 'of a mistyped directory' 2 'dd: No such file or directory' dd
    refuses_recovery 'of it by a broken setting' 1 'usage rule 1' --threshold 0 dd
    refuses_recovery 'of a file' 2 'sevens: Not a directory' sevens
    refuses_recovery 'of an empty directory' 2 'd holds no run: no journal there has a header' d
    empty_cones d 000 001
    refuses_recovery 'of empty files' 2 'd holds no run: no journal there has a header' d
    printf LER >d/cone-001.journal
    refuses_recovery 'of a journal of three bytes' 9 'cone 1 file 0 malformed at 3' d
    printf 'LERTL\1\0\0\0' >d/cone-001.journal
    refuses_recovery 'of a log as a journal' 9 'cone 1 file 0 malformed at 4' d
    rm d/cone-001.journal && mkfifo d/cone-001.journal
    refuses_recovery 'of a named pipe' 2 'd/cone-001.journal is no file' d
}

# Directories in which something of a run is missing, or is another run's.
check_mixed_runs() {
    local made='is missing or empty; 1 of 2 journals have a header'
    run_of_two >report && rm d/cone-001.*
    refuses_recovery 'without a cone' 9 "cone 1 isn't whole: d/cone-001.journal $made" d
    empty_cones d 001
    refuses_recovery 'of a run that did not make a cone' 9 "cone 1 isn't whole: d/cone-001.journal $made" d
    run_of_two >report && rm d/cone-001.log
    refuses_recovery 'without a log' 9 "cone 1 isn't whole: d/cone-001.log ${made/1 of/2 of}" d
    run_of_two >report && printf M | dd of=d/cone-000.journal conv=notrunc status=none
    refuses_recovery 'of a damaged journal beside a whole one' 9 'cone 0 file 0 malformed at 0' d
    cp d/cone-001.journal d/cone-000.journal
    refuses_recovery 'of another cone' 10 'd/cone-000.journal: the header is that of cone 1' d
    run_of_two >report && cp d/cone-001.journal . && run_long 4 3 2 4 2 1 32 8 three_each >report
    cp cone-001.journal d/
    refuses_recovery 'of two runs' 10 \
        'd/cone-001.journal is of another run: threshold 3, and 4 in cone-000.journal' d
    printf '\377' | dd of=d/cone-000.journal bs=1 seek=27 conv=notrunc status=none
    refuses_recovery 'of settings that there are not' 10 \
        "d/cone-000.journal: the header's numbers break rule 6 of the settings" d
    rm -rf d cone-001.journal
}

# All programs of this machine but python3.
check_without_python() {
    run_of_two >report
    rm -rf bare && mkdir bare && ln -s /usr/bin/* /bin/* bare/ 2>"$work/kept_err"
    rm -f bare/python3*
    gives 'a recovery without python3' 10 '' \
        "lert: there is no python3 to read the run's settings with: those that are left out are the usual ones
lert: cone 0 has other settings\n" env PATH="$work/bare" "$top/lert" recover d
    gives 'the files after it' 0 "$(grep '^cone' report)\n" '' \
        eval "sound d | sed 's/ n0 [0-9]*//'"
    rm -rf bare d
}

check_settings() {
    check_options
    has mkfifo && check_places_of_runs
    check_mixed_runs
    check_without_python
}

# --- what ./lert says of itself

usual_by_help() { lert --help | sed -n 's/^\(--[a-z-]*\) [A-Z] *\([0-9]*\) .*/\1 \2/p' | sort; }
usual_by_formats() { sed -n 's/^| `\(--[a-z-]*\)` | .* | \([0-9]*\).*/\1 \2/p' "$top/docs/FORMATS.md" | sort; }

check_help() {
    gives 'eleven options in FORMATS.md' 0 '11\n' '' eval 'usual_by_formats | wc -l'
    gives 'help tells each option and what is usual' 0 '' '' cmp <(usual_by_formats) <(usual_by_help)
    gives 'the same by its short word' 0 '' '' cmp <(lert --help) <(lert -h)
    gives 'the version' 0 "lert, of the sources $("$top/tools/build/digest")\n" '' lert --version
    gives 'help with more words' 1 '' 'lert: usage rule 0\n' lert --help run
}

# --- the program in dist/

# What is wrong with the kept program of a repository, if anything.
fault_of_kept() {
    local kept=$1/dist/lert-x86_64-linux-gnu sources
    sources=$("$1/tools/build/digest") || return
    if [ ! -x "$kept" ]; then
        echo 'there is no program in dist'
    elif ! grep -qx "sources $sources" "$kept.made"; then
        echo 'the program in dist was made of other sources: tools/build/release makes it anew'
    elif ! grep -qx "program $(sha256sum <"$kept" | cut -d' ' -f1)" "$kept.made"; then
        echo 'the program in dist is not the one that was made'
    else
        return 0
    fi
    return 1
}

check_kept() {
    local kept=$top/dist/lert-x86_64-linux-gnu built=$top/crates/lert_program/out/lert_program
    make_small
    gives 'takes a kept program' 0 '' '' fault_of_kept small
    echo >>small/crates/lert_low/src/lib.rt
    gives 'refuses a kept program of other sources' 1 \
        'the program in dist was made of other sources: tools/build/release makes it anew\n' '' fault_of_kept small
    make_small && echo >>small/dist/lert-x86_64-linux-gnu
    gives 'refuses a kept program of other bytes' 1 \
        'the program in dist is not the one that was made\n' '' fault_of_kept small
    rm -rf small
    gives 'the program in dist' 0 '' '' fault_of_kept "$top"
    if ! grep -qx "kit $(rt version 2>&1)" "$kept.made" 2>"$work/err"; then
        echo 'skipped: the kit that the program in dist was made with is not here'
    elif ! grep -qx "sources $("$top/tools/build/digest")" "$built.made" 2>"$work/err"; then
        echo 'skipped: these sources are not built here, so the program in dist is compared with nothing'
    else
        gives 'the bytes of the program in dist' 0 '' '' cmp "$kept" "$built"
    fi
}
