# Checks what recoveries make of files that a crash may leave. tools/check reads it.

# Some images of recorded runs and reopenings, some with a changed byte, and syncs that are left out.
check_crash_images() {
    has python3 cc || return
    gives 'recoveries of what a crash may leave' 0 '' '' \
        passes "$top/tools/tests/crash_images" "$("$top/tools/lib/program")" --images 100
}
