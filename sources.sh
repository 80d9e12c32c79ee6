# Which sources a program or the library is built from, for the build, the release, the installation and the
# benchmarks. A script sources it, with the folder of the repository as $top.

# Where the sources of programs or of the library lie: crates.txt, c/, and src/ and specs/ of the crates that they
# depend on. The library has its headers too.
places_of_sources() {
    names=$(awk -F: -v targets="$*" '
        { sub(/#.*/, "") }
        NF > 1 { split($1, first, " "); uses[first[1]] = $2 }
        function visit(name,    names, i, n) {
            if (!(name in uses) || name in seen) return
            seen[name]
            n = split(uses[name], names, " ")
            for (i = 1; i <= n; i++) visit(names[i])
            print name
        }
        END { n = split(targets, names, " "); for (i = 1; i <= n; i++) visit(names[i]) }' "$top/crates.txt") || return
    of_c=c
    case " $* " in *" halfgates_c "*) of_c="c include" ;; esac
    for name in $names; do
        for place in "crates/$name/src" "crates/$name/specs"; do
            [ -d "$top/$place" ] && echo "$place"
        done
    done | xargs echo crates.txt $of_c
}

# The checksum of these sources. It fails where a tool is missing or fails, which then has said so.
sum_of_sources() {
    places=$(places_of_sources "$@") && files=$(cd "$top" && find $places -type f) &&
        files=$(echo "$files" | LC_ALL=C sort) && sums=$(cd "$top" && echo "$files" | xargs sha256sum) &&
        sums=$(echo "$sums" | sha256sum) && echo "${sums%% *}"
}

# Whether a file was built from sources with this checksum: the file next to it says from which it was.
is_built_from() {
    [ -f "$2" ] && read -r built_from <"$2.sources" && [ "$built_from" = "$1" ]
} 2>/dev/null

# The version, as a header of the library has it.
version_in() {
    awk '/^#define HALFGATES_VERSION_/ { version = version dot $3; dot = "." } END { print version }' "$1"
} 2>/dev/null
