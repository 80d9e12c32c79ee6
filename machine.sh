# What depends on the machine. A script sources it, with the folder of the repository as $top.

# Whether this processor has what x86-64-v3 asks for, as most since 2015 have.
is_v3() {
    while read -r key flags; do
        [ "$key" != flags ] || break
    done </proc/cpuinfo
    for flag in avx avx2 bmi1 bmi2 f16c fma abm movbe; do
        case " $flags " in *" $flag "*) ;; *) return 1 ;; esac
    done
} 2>/dev/null

# Finds the program of dist/, the release, and the folder of its library, for processors of this kind. Their paths are
# then $program and $library. Only where ARM64's loader is there, uname is asked: under an emulator, /proc/cpuinfo may
# be about another processor.
find_released() {
    program=$top/dist/halfgates library=$top/dist/lib
    if [ -e /lib/ld-linux-aarch64.so.1 ] && [ "$(uname -m)" = aarch64 ]; then
        program=$top/dist/aarch64/halfgates library=$top/dist/lib/aarch64
    elif is_v3; then
        program=$top/dist/v3/halfgates
    fi
}

# Finds the program: the one that ./build made for this processor since the release, or else that of the release.
find_program() {
    program=$top/out/halfgates
    [ "$program" -nt "$top/dist/halfgates.sources" ] || find_released
}

# From now on programs use large pages, where the system grants them on request, and keep what they free for what they
# allocate next, in one heap for all threads: much of the time that opening large tables takes is the handing out of
# their pages. Where the address space is limited, the room that is reserved may not fit.
#
# glibc 2.36 compares the system's mode for large pages with one byte more than it has read, so that a byte left on the
# stack decides whether a run has them. With LD_BIND_NOW that byte is zero, as it must be.
tune_memory() {
    [ "$(ulimit -v)" = unlimited ] || return 0
    malloc=glibc.malloc
    keeps=$malloc.arena_max=1:$malloc.mmap_threshold=1099511627776:$malloc.trim_threshold=1099511627776
    GLIBC_TUNABLES=${GLIBC_TUNABLES-$malloc.hugetlb=1:$keeps:$malloc.top_pad=268435456}
    LD_BIND_NOW=1
    export GLIBC_TUNABLES LD_BIND_NOW
}
