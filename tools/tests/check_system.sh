# Checks what the program does where open files are few or memory is little, and where there is no /dev. tools/check
# reads it.

# --- few open files

# few_files LIMIT TRACE..: the program itself, in one cone, with no other open files than its streams.
few_files() {
    local limit=$1 file
    shift
    rm -rf d
    (
        for file in /proc/$BASHPID/fd/*; do
            [ "${file##*/}" -le 2 ] || eval "exec ${file##*/}>&-"
        done
        ulimit -n "$limit" && "$program" run --threshold 3 --cone-bits 0 d "$@"
    )
}

# ./lert in 64 cones, each of which takes little memory, where the soft limit is 1,024.
many_files() {
    rm -rf d
    (ulimit -Sn 1024 && lert run --cone-bits 6 --base 4 --levels 1 --room 1 --threshold 4294967295 d "$@" | tail -n 1)
}

check_open_files() {
    local report='cone 0 events 3 reports 1 closed\n7 3\ntotal events 3 reports 1\n' many
    has /proc/self/fd || return
    gives 'as many open files as a run has' 0 "$report" '' few_files 10 sevens
    gives 'one open file fewer' 2 '' 'lert: place fault\n' few_files 9 sevens
    gives 'a run again, with as many' 0 "$report" '' "$program" run --threshold 3 --cone-bits 0 d sevens
    gives 'as many open files as a run of two traces has' 0 "$report" '' few_files 11 sevens no_key
    gives 'one open file fewer, with two traces' 2 '' 'lert: place fault\n' few_files 10 sevens no_key
    if [ "$(ulimit -Hn)" != unlimited ] && [ "$(ulimit -Hn)" -lt 1232 ]; then
        echo 'skipped: the hard limit of open files is below 1,232'
        return
    fi
    mapfile -t many < <(yes no_key | head -n 1024)
    gives 'more open files than the soft limit' 0 'total events 0 reports 0\n' '' many_files "${many[@]}"
}

# --- little memory

# 64 workers over one trace in 256 cones, where the rings of all of them, 1,024 MiB, don't fit.
few_rings() {
    rm -rf d
    (
        export MALLOC_ARENA_MAX=1
        ulimit -s 256 && ulimit -v 300000 &&
            "$program" run --workers 64 --cone-bits 8 --room 16 --base 64 --levels 2 --threshold 3 d "$1" | tail -n 1
    )
}

check_rings() {
    gives 'workers without a trace' 0 'total events 3 reports 1\n' '' few_rings sevens
}

# --- no /dev

# A root directory with the program, the libraries that it wants, and a trace.
make_root() {
    local needed
    rm -rf root && mkdir root && cp "$program" root/lert && cp sevens root/
    for needed in $(ldd "$program" | grep -o '/[^ ]*'); do
        mkdir -p "root$(dirname "$needed")" && cp "$needed" "root$needed"
    done
}

in_root() { chroot root /lert "$@"; }
run_in_root() { in_root run --threshold 3 --cone-bits 0 "$1" sevens; }
recover_in_root() { in_root recover --threshold 3 --cone-bits 0 "$1"; }
without_input() { "$@" <&-; }
without_output() { "$@" >&-; }
without_errors() { "$@" 2>&-; }

check_no_devices() {
    local report='cone 0 events 3 reports 1 closed\n7 3\ntotal events 3 reports 1\n' fault='lert: place fault\n'
    make_root
    in_root >"$work/out" 2>&1 </dev/null
    if [ $? -ne 1 ]; then
        echo 'skipped: the root directory cannot be changed here'
        return
    fi
    gives 'a run without /dev' 0 "$report" '' run_in_root d
    cp -r root/d d_before
    gives 'one without an input besides' 2 '' "$fault" without_input run_in_root e
    gives 'one without an output' 2 '' "$fault" without_output run_in_root e
    gives 'one without errors' 2 '' '' without_errors run_in_root e
    gives 'a recovery without an output' 2 '' "$fault" without_output recover_in_root e
    gives 'what they made' 1 '' '' test -e root/e
    gives 'a recovery of files without an output' 2 '' "$fault" without_output recover_in_root d
    gives 'the files after it' 0 '' '' diff -r d_before root/d
    gives 'a recovery without /dev' 0 "$report" '' recover_in_root d
    gives 'generated keys without an output' 11 '' 'lert: output fault\n' without_output in_root gen
    gives 'no words without an output' 1 '' 'lert: usage rule 0\n' without_output in_root
    rm -rf root d_before
}

check_system() {
    local program
    program=$("$top/tools/lib/program")
    check_open_files
    check_rings
    has chroot ldd && check_no_devices
}
