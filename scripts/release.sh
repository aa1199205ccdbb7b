#!/bin/sh
# Makes release/ of the program that the gate has proved and built here: scripts/release.sh. With the word --check it makes
# nothing, and says whether release/ is what it would make: status 1 where it isn't, with the line of why.
root=$(dirname "$(dirname "$(readlink -f "$0")")")
# shellcheck source=scripts/program.sh
. "$root/scripts/program.sh"
program=$out/gpscover
packed_name=gpscover-x86_64-linux.gz

# Ends with a status and, as the other tests do, with a line that counts.
end() {
    echo "release: $((1 - $1)) passed, $1 failed: $2"
    exit "$1"
}

# What SHA256SUMS has of the program and of its packed file $1.
sums_of() {
    echo "$(sum_of "$program")  gpscover"
    echo "$(sum_of "$1")  $packed_name"
    echo "$sources  sources"
    echo "kit $kit"
}

check() {
    read_release || end 1 "release/SHA256SUMS isn't there, or lacks a line; scripts/release.sh makes it"
    [ "$release_kit" = "$kit" ] ||
        end 0 "of another kit, $release_kit, so it isn't compared; the next release is made by $kit"
    [ "$release_sources" = "$sources" ] ||
        end 1 "it is of other sources; scripts/release.sh makes it anew, and it is committed with them"
    gzip -dc "$root/$packed" 2>/dev/null | cmp -s - "$program" ||
        end 1 "$packed isn't the program that these sources give; scripts/release.sh makes it anew"
    sums_of "$root/$packed" | cmp -s - "$sums" || end 1 "release/SHA256SUMS has other sums; scripts/release.sh makes it anew"
    end 0 "$packed is the program that was proved and built here, to the byte"
}

make() {
    mkdir -p "$root/release"
    cd "$root/release" || exit 1
    # The same program, packed by another gzip, is still the release, and isn't committed again.
    if ! gzip -dc "$packed_name" 2>/dev/null | cmp -s - "$program"; then
        gzip -9nc "$program" >"$packed_name.next" && mv "$packed_name.next" "$packed_name"
    fi
    sums_of "$packed_name" >SHA256SUMS
    cat SHA256SUMS
}

if ! { [ -x "$program" ] && [ -r "$built" ]; }; then
    end 1 "nothing is proved and built here; .ci/run does it"
fi
kit=$(sed -n 1p "$built")
sources=$(sources_sum)
[ "$(sed -n 2p "$built")" = "$sources" ] || end 1 "what is built is of other sources; .ci/run builds it anew"
case $1 in
    --check) check ;;
    '') make ;;
    *) end 1 "usage: release.sh [--check]" ;;
esac
