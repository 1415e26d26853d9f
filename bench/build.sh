# What bench/run and bench/compare build: sourced by each, in the folder bench. $workdir is a folder of the run's own.
top=$(cd .. && pwd)
workdir=$(mktemp -d)
trap 'rm -rf "$workdir"' EXIT
sets=(x86-64-v2 x86-64-v3)
libraries=
# The speed of a short call depends on the code around it, so a run uses this many orders of the code.
layouts=8

# Stops with a message.
fail() {
    echo "$(basename "$0"): $*" >&2
    exit 1
}
. ../assembly/common.sh
. ../checks/lib/need.sh

# our_library TREE SET FILE: builds the libraries of the benchmark's crates in a tree, proved, for an instruction set,
# as one object, as the tree builds its products: with prefetches, if it has them. Kernels that calls have to name have
# none, and their crate lacks the other hashes. A tree may lack all crates except the first; only that one has the wide
# code for x86-64-v4.
our_library() {
    local tree=$1 set=$2 file=$3 crate archives=() cpu=() annotated=() wide=()
    [ ! -x "$tree/assembly/annotated" ] || annotated=("$tree/assembly/annotated")
    [ -d "$tree/crates/bench_exports" ] || fail "$tree has no crate bench_exports"
    [ "$set" = x86-64-v2 ] || cpu=(--cpu="${set/v4/v3}")
    [ "$set" != x86-64-v4 ] || wide=(--wide "$workdir/wide")
    for crate in bench_exports bench_calls bench_kernels; do
        [ -d "$tree/crates/$crate/src" ] || continue
        archives+=("$tree/crates/$crate/out/lib$crate.a")
        [ "$crate" != bench_kernels ] || annotated=()
        prove_into "${archives[-1]}" "$crate of $tree for $set" "${TMPDIR:-/tmp}/bench-lib.log" \
            "${annotated[@]}" "${wide[@]}" rt lib "${cpu[@]}"
        [ ${#wide[@]} = 0 ] || archives=("$workdir/wide/module.o") wide=()
    done
    ld -r --whole-archive "${archives[@]}" -o "$file"
}

# link_layouts SET PEERS OBJECT..: links $workdir/SET/driver_1 to driver_8. In each the functions of the objects begin
# at multiples of 64, as in the products (c/build, rust/build-library), and the objects are in another order. The driver
# stays in place, and no jump of its loops crosses 32 bytes, which would slow all peers at once. PEERS are the names of
# the peers in the objects, whose functions are in sections of their own; $libraries are linked too.
link_layouts() {
    local folder=$workdir/$1 peers=$2 objects=("${@:3}") layout found
    {
        echo '#include "peer.h"'
        for peer in $peers; do echo "extern const struct peer $peer;"; done
        echo "const struct peer *const peers[] = { $(printf '&%s, ' $peers)};"
        echo 'const size_t peer_count = sizeof peers / sizeof peers[0];'
    } > "$folder/peers.c"
    gcc -O3 -I. -c "$folder/peers.c" -o "$folder/peers.o"
    gcc -O3 -Wall -Wextra -Wa,-mbranches-within-32B-boundaries -c driver.c -o "$folder/driver.o"
    for ((layout = 1; layout <= layouts; layout++)); do
        ld -r -T places.ld "${objects[@]}" -o "$folder/functions.o"
        objcopy --set-section-alignment .text=64 "$folder/functions.o"
        # Frames of objects that `ld -r` joined have no table, and nothing here is unwound.
        gcc "$folder"/{driver,peers,functions}.o $libraries -Wl,--no-eh-frame-hdr -o "$folder/driver_$layout" ||
            fail "the driver was not linked"
        found=$(nm "$folder/driver_$layout" | awk '$3 == "twox_xxh3_64" { print $1 }')
        ((0x$found % 64 == 0)) || fail "a function lies at $found, which is no multiple of 64"
        objects=("${objects[@]:1}" "${objects[0]}")
    done
}

# passes PROGRAM WORDS..: runs a driver three times, since a neighbour of a virtual machine can slow a whole
# measurement.
passes() {
    local pass
    for pass in 1 2 3; do "$@" || return; done
}

# one_round SET ROUND WORDS..: runs the layout of that round with these arguments; its lines go to
# $workdir/SET/round_ROUND.
one_round() {
    passes "$workdir/$1/driver_$((($2 - 1) % layouts + 1))" "${@:3}" > "$workdir/$1/round_$2" ||
        fail "the driver stopped"
}

