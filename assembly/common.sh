# Proves and builds: sourced by c/build, c/install, rust/build-library, web/build and the benchmark's scripts, with
# `fail` defined. $assembly is this folder.
assembly=$(cd "$(dirname "${BASH_SOURCE[0]}")" && pwd)

# read_build ARGS: sets `update` if an argument is --update, and `prover` to the command whose verbs `lib` and `run`
# prove and build, which --of-ci changes. It runs through `annotated`, with no prefetches if an argument is --plain.
read_build() {
    update='' prover=rt annotated=("$assembly/annotated")
    local word
    for word in "$@"; do
        case $word in
        --update) update=yes ;;
        --plain) annotated+=(--plain) ;;
        --of-ci) prover=$assembly/over-ci ;;
        *) return 1 ;;
        esac
    done
}

# proving NAME LOG COMMAND..: runs a command of rt in the current folder, whose output goes to a log, and prints what it
# proves and how long that took. On an error it stops and prints the log.
proving() {
    local name=$1 log=$2 start=$SECONDS functions
    shift 2
    printf '%s: %s: ' "$(basename "$0")" "$name" >&2
    if ! "$@" > "$log" 2>&1; then
        echo >&2
        grep -E 'error|^[a-z]+ \S+::' "$log" | grep -v ': proved' | head -n 20 >&2 || true
        fail "$name is not proved or not built: $log"
    fi
    functions=$(sed -nE 's/^logic=proved functions=([0-9]+) .*/functions proved: \1/p' "$log" | tail -n 1)
    echo "${functions:-proved before}, $((SECONDS - start)) s" >&2
}

# prove_into FILE NAME LOG COMMAND..: proves and builds the crate in whose folder out/ the file is made. Removes older
# results first, also for another target, since a refused build leaves the older file.
prove_into() {
    local file=$1
    rm -f "$file"
    (cd "$(dirname "$(dirname "$file")")" && proving "${@:2}") || exit 1
    [ -f "$file" ] || fail "rt made no $file: $3"
}

# write_text OBJECT FOLDER NAME TITLE [TAG]: renames the object's functions to the source's names, and writes the source
# to FOLDER/NAME.s. If GNU as makes the same object from it, the sums of that object go to FOLDER/NAME.sums.
write_text() {
    local object=$1 file=$2/$3 title=$4 same=$assembly/same-bytes
    shift 4
    python3 -B "$assembly/.." assembly.names names "$object" "$@" || fail "the functions of $object got no names"
    python3 -B "$assembly/.." assembly.text text "$object" "$title" "$@" > "$file.s" || fail "$file.s was not written"
    "${tools}as" "$file.s" -o "$workdir/text.o" || fail "$file.s was not assembled"
    "$same" "$object" "$workdir/text.o" >&2 || fail "$file.s is not the text of $object"
    "$same" --sums "$workdir/text.o" > "$file.sums" || fail "$file.sums was not written"
}

# settle MADE COMMITTED UPDATE: prints which generated files differ from the committed ones. If UPDATE isn't empty it
# copies them there.
settle() {
    local file other=()
    for file in "$1"/*; do
        cmp -s "$file" "$2/${file##*/}" || other+=("$file")
    done
    [ ${#other[@]} -gt 0 ] || return 0
    if [ -n "$3" ]; then
        cp "${other[@]}" "$2/"
        echo "$2 has these anew: ${other[*]##*/}" >&2
    else
        echo "$2 has other files than what is proved now: ${other[*]##*/}. --update puts them there" >&2
    fi
}
