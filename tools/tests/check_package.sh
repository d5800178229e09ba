# Checks the Debian package: its bytes, what lintian says of it, and, where LERT_ROOT names the root of a bare Debian 12
# with python3, as debootstrap makes it, that it is installed there, works, and is removed. tools/check reads it.

# Two packages are the same bytes, and what is in one works.
packed_twice() {
    rm -rf x l && "$top/tools/build/package" second.deb && cmp first.deb second.deb && dpkg-deb -x first.deb x || return
    printf '%s\n' ann bob ann ann | x/usr/bin/lert-live --threshold 3 l 2>said | cut -d' ' -f4-
    x/usr/bin/lert-report l/run-* | head -n 1 && zcat x/usr/share/man/man1/lert.1.gz | head -n 1
}

# inside WORD..: runs words in a copy of the root, from its /tmp, with a /proc of its own.
inside() {
    unshare -m sh -c 'mount -t proc proc bare/proc && exec "$@"' sh \
        chroot bare env -i PATH=/usr/bin:/usr/sbin LC_ALL=C.UTF-8 sh -c 'cd /tmp && exec "$@"' sh "$@"
}
inside_by() { inside sh -c "$1"; }

# The files of the root but what dpkg and apt write down.
files_inside() {
    (cd bare && find . \( -path ./var/lib/dpkg -o -path ./var/cache -o -path ./var/log -o -path ./tmp \) -prune -o -print) |
        sort
}

# What bash offers behind these words.
offered() {
    inside bash -c '. /usr/share/bash-completion/completions/"$1"
        COMP_WORDS=("$@") COMP_CWORD=$(($# - 1))
        $(complete -p "$1" | sed "s/.*-F \([^ ]*\).*/\1/")
        echo "${COMPREPLY[@]}"' bash "$@"
}

# What the program does where there is no python3: it runs, and the tools don't.
without_python() {
    mv bare/usr/bin/python3 bare/usr/bin/hidden
    inside_by 'lert gen --events 1000 >generated
        lert run --cone-bits 0 --threshold 30 one generated | tail -n 1
        lert recover --cone-bits 0 --threshold 30 one | tail -n 1
        lert --help | head -n 1
        lert-keys 2>lacks; echo "status $?"'
    mv bare/usr/bin/hidden bare/usr/bin/python3
}

# From lines to names, a recovery, each tool, and a service.
with_python() {
    inside_by 'printf "%s\n" ann bob ann ann | lert-keys pack --hash --names names trace
        lert run --threshold 3 --cone-bits 0 d trace | lert-keys label --names names
        lert recover d | tail -n 1
        lert-watch --names names d | head -n 1
        lert-report --names names d | tail -n 1
        lert-sound d
        lert-journal --keys d/cone-000.journal | wc -l
        lert-fit --events 100 --memory 1M
        lert-picture d
        printf "%s\n" ann bob ann ann | lert-live --threshold 3 live 2>said | cut -d" " -f4- && tail -n 1 said' 2>&1
}

installed_inside() {
    rm -rf bare && cp -a "$LERT_ROOT" bare && files_inside >before && cp first.deb bare/tmp/ || return
    inside dpkg --force-unsafe-io -i first.deb >"$work/said" 2>&1 && inside dpkg-query -W -f '${Status}\n' lert && inside dpkg --verify lert
}

# Services that go on are ended, words that a user wrote stay, and else nothing does.
removed_inside() {
    mkdir -p bare/run/systemd/system && printf '#!/bin/sh\necho "$@"\n' >bare/usr/bin/systemctl &&
        chmod +x bare/usr/bin/systemctl && echo 'OPTIONS=' >bare/etc/lert/mine.conf || return
    inside dpkg -r lert | grep stop && inside dpkg -P lert >"$work/said" 2>&1
    find bare/etc/lert -type f && rm -r bare/etc/lert bare/usr/bin/systemctl bare/run/systemd
    diff before <(files_inside)
}

check_inside() {
    local key=11957940740637538957 said lacks
    if [ -z "${LERT_ROOT-}" ] || [ "$(id -u)" -ne 0 ]; then
        echo 'skipped: LERT_ROOT names no root to install the package in'
        return
    fi
    has chroot unshare || return
    gives 'installs the package' 0 'install ok installed\n' '' installed_inside
    said='total events 1000 reports 0\ntotal events 1000 reports 0\n'
    said+='Reports each key that comes often enough in streams of 64-bit keys.\nstatus 127\n'
    lacks="lert: there is no python3 to read the run's settings with: those that are left out are the usual ones\n"
    gives 'runs without python3' 0 "$said" "$lacks" without_python
    said="cone 0 events 4 reports 1 closed\n$key 4 ann\ntotal events 4 reports 1\ntotal events 4 reports 1\n"
    said+="0 $key 4 ann\n0 $key 3 1 4 4 ann\ncone 0 events 4 n0 4 reports 1 closed\n4\n"
    said+='fit: the memory is too little for any run\n'
    said+="picture: /usr/bin/python3 has no matplotlib: with Debian's python3-matplotlib /usr/bin/python3 has it\n"
    said+='4 ann\nlive: ended: 4 records, 0 lines that are none, 0 records in no journal\n'
    gives 'runs with python3' 0 "$said" '' with_python
    gives 'completes a command' 0 'recover\n' '' offered lert re
    gives 'completes an option' 0 '\x2d-bins --base\n' '' offered lert run --b
    gives 'completes an option of a tool' 0 '\x2d-format\n' '' offered lert-report --f
    gives 'removes the package' 0 'stop lert@*.service lert-report@*.timer\nbare/etc/lert/mine.conf\n' '' removed_inside
    rm -rf bare
}

# The libraries that the program wants, and the newest version of the C library that it knows.
wanted_libraries() {
    objdump -p "$1" | sed -n 's/ *NEEDED *//p' && objdump -T "$1" | grep -o 'GLIBC_[0-9.]*' | sort -Vu | tail -n 1
}

check_package() {
    has dpkg-deb zcat || return
    if ! "$top/tools/build/package" first.deb 2>said && grep -q 'other sources' said; then
        echo 'skipped: the program in dist/ is of other sources'
        return
    fi
    gives 'a package' 0 '4 ann\ncone 0 events 4 of 786432 reports 1 closed\n.TH LERT 1 "2026-11-30"\n' '' packed_twice
    has objdump && gives 'what the package depends on' 0 'libc.so.6\nGLIBC_2.34\n' '' \
        wanted_libraries "$top/dist/lert-x86_64-linux-gnu"
    has lintian && gives 'a package without an error' 0 '' '' passes lintian --allow-root --fail-on error first.deb
    check_inside
}
