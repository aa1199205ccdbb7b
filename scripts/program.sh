# What ./gpscover, scripts/release.sh and .ci/run have in common: the sources that the program is made of and their sum,
# the release, and how the program is proved and built. Sourced with $root, the top of the repository.
# shellcheck shell=sh disable=SC2154 # root is the caller's

out=$root/crates/gpscover/out
built=$out/built
sums=$root/release/SHA256SUMS

give_up() {
    echo "gpscover: $1" >&2
    exit 125
}

# The crates that gpscover stands on, and itself, the lowest first; with the word `lines`, their lines of crates.txt.
crates() {
    awk -v what="$1" '
        { sub(/[ \t]*#.*/, "") }
        /:/ { line = $0; name = $1; sub(/:$/, "", name); sub(/^[^:]*:/, ""); uses[name] = $0; lines[name] = line }
        function visit(name,   parts, n, i) {
            if (name in seen || !(name in uses)) return
            seen[name] = 1
            n = split(uses[name], parts)
            for (i = 1; i <= n; i++) visit(parts[i])
            print what == "lines" ? lines[name] : name
        }
        END { visit("gpscover") }' "$root/crates.txt"
}

# The folders of these crates' sources, from the top of the repository.
source_folders() {
    for crate in $(crates); do
        for part in src specs proofs; do
            [ ! -d "$root/crates/$crate/$part" ] || echo "crates/$crate/$part"
        done
    done
}

# The first word of what sha256sum says of the standard input.
sum() {
    set -- "$(sha256sum)"
    echo "${1%% *}"
}

# The SHA-256 of a file, or an empty line where it can't be read.
sum_of() {
    if [ -r "$1" ]; then sum <"$1"; else echo; fi
}

# One sum over the sources with their names, and over what crates.txt says of their crates.
sources_sum() {
    (
        cd "$root" || exit
        {
            crates lines
            # shellcheck disable=SC2046 # names without blanks
            find $(source_folders) -type f -print0 | LC_ALL=C sort -z | xargs -0 sha256sum
        } | sum
    )
}

# One sum over all by which a change of a source shows without reading it: the name, size, inode and time of the last
# change of any kind, which touch can't set, of each source and folder.
sources_state() {
    # shellcheck disable=SC2046
    (cd "$root" && find crates.txt $(source_folders) -printf '%p %s %C@ %i\n' | sum)
}

# Whether the sources have the sum $1. They are read only where their state isn't the one that the file $2 has kept since
# they last had that sum.
have_sum() {
    now="$1 $(sources_state)"
    if [ -r "$2" ] && read -r before <"$2" && [ "$before" = "$now" ]; then
        return 0
    fi
    [ "$(sources_sum)" = "$1" ] || return 1
    # What has changed in these two seconds might change once more and keep its time.
    # shellcheck disable=SC2046
    if [ -z "$(cd "$root" && find crates.txt $(source_folders) -newerct '2 seconds ago' -print -quit)" ]; then
        (echo "$now" >"$2.$$" && mv -f "$2.$$" "$2") 2>/dev/null
    fi
    return 0
}

# ---- the release

# Reads release/SHA256SUMS: the sums of the program, of its packed file and of its sources, and the kit that built it.
read_release() {
    program_sum='' packed_sum='' packed='' release_sources='' release_kit=''
    [ -r "$sums" ] || return 1
    while read -r word name; do
        case $name in
            gpscover) program_sum=$word ;;
            *.gz) packed_sum=$word packed=release/$name ;;
            sources) release_sources=$word ;;
        esac
        [ "$word" != kit ] || release_kit=$name
    done <"$sums"
    [ -n "$program_sum" ] && [ -n "$packed_sum" ] && [ -n "$release_sources" ] && [ -n "$release_kit" ]
}

# ---- the program that is built here

# What $built has of a build: the kit's line, and the sum of the sources.
describe() {
    rt version && sources_sum
}

# Whether there is no build, or it is of another kit than the one on the path, if there is one, or of other sources.
is_stale() {
    [ -x "$out/gpscover" ] && [ -r "$built" ] || return 0
    if command -v rt >/dev/null && [ "$(rt version)" != "$(sed -n 1p "$built")" ]; then
        return 0
    fi
    ! have_sum "$(sed -n 2p "$built")" "$out/seen"
}

# How many crates are proved at a time: one a processor, and one for each 4 GB of free memory.
side_by_side() {
    awk -v most="$(nproc)" '
        /^MemAvailable:/ { fit = int($2 / 4000000) }
        END { print fit < 1 ? 1 : fit < most ? fit : most }' /proc/meminfo
}

# Passes on nothing of what a check says but the names of the crates that have ended, of $1.
tell_ended() {
    ended=0
    while read -r mark crate more; do
        if [ "$mark" = "==" ] && [ "$crate" != summary ] && [ -z "$more" ]; then
            ended=$((ended + 1))
            echo "gpscover: $crate has ended (crate $ended of $1)" >&2
        fi
    done
}

# Proves and builds over what earlier checks have kept in the crates' out/.
build_over_kept() {
    at_once=$(side_by_side)
    echo "gpscover: proving $n crates, up to $at_once side by side" >&2
    (cd "$root/crates/gpscover" && rt all check --jobs "$at_once") </dev/null 2>&1 | tee "$out/build.log" | tell_ended "$n"
    grep -q "^$n of $n crates ok" "$out/build.log" ||
        give_up "not proved: $(sed -n 's/^\([a-z0-9_]*\): failed .*/\1/p' "$out/build.log" | xargs); see $out/build.log"
    echo "gpscover: building" >&2
    # The program runs once here, with no words, which is all that rt offers to build it.
    (cd "$root/crates/gpscover" && rt run) </dev/null >"$out/build.log" 2>&1
    grep -q '^rt: running out/gpscover' "$out/build.log" || give_up "the program isn't built; see $out/build.log"
}

# Proves and builds from nothing, as the gate does, in a copy of the program's crates alone: with nothing kept this is the
# quicker way, since checks share the processors that are idle, and the libraries below are read as their statements.
build_from_nothing() {
    copy=$(mktemp -d) || give_up "no folder can be made in ${TMPDIR:-/tmp}"
    trap 'rm -rf "$copy"' EXIT
    crates lines >"$copy/crates.txt"
    cp "$root/HANDLES" "$copy/"
    for crate in $(crates); do
        mkdir -p "$copy/crates/$crate"
        for part in src specs proofs data args status stdin stdout; do
            [ ! -e "$root/crates/$crate/$part" ] || cp -R "$root/crates/$crate/$part" "$copy/crates/$crate/"
        done
    done
    echo "gpscover: proving $n crates from nothing" >&2
    (cd "$copy" && rt ci) </dev/null 2>&1 | tee "$out/build.log" | tell_ended "$n"
    tail -n 1 "$out/build.log" | grep -q "^$n passed, 0 failed$" ||
        give_up "not proved: $(sed -n 's/^rt: FAILED: //p' "$out/build.log"); see $out/build.log"
    cp "$copy/crates/gpscover/out/gpscover" "$out/gpscover.next" && mv -f "$out/gpscover.next" "$out/gpscover"
    rm -rf "$copy"
    trap - EXIT
}

build() {
    if ! command -v rt >/dev/null; then
        [ ! -r "$sums" ] || echo "gpscover: the sources aren't those of the released program" >&2
        give_up "rt, the toolchain, isn't on the path, so no program can be built"
    fi
    n=$(crates | wc -l)
    describe >"$built.next"
    rm -f "$built"
    if [ "$1" != from_nothing ] && [ -d "$out/incremental" ]; then
        build_over_kept
    else
        build_from_nothing
    fi
    mv "$built.next" "$built"
}

# Builds where the last build is stale, or, with the word `from_nothing`, in any case. One run builds, and others wait for it.
make_program() {
    [ "$1" = from_nothing ] || is_stale || return 0
    mkdir -p "$out" 2>/dev/null || give_up "$out can't be made, so no program can be built"
    exec 9<"$root/crates.txt"
    flock -n 9 || { echo "gpscover: waiting for another run that builds it" >&2 && flock 9; }
    if [ "$1" = from_nothing ] || is_stale; then
        build "$1"
    fi
    exec 9<&-
}
