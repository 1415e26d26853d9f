# Copies of crates with one more program, which is no crate of CI, so its files end in `.in`.
set -euo pipefail
top=$(cd "$(dirname "${BASH_SOURCE[0]}")/../.." && pwd)
workdir=$(mktemp -d)
trap 'rm -rf "$workdir"' EXIT

# enter_copy PROGRAM FOLDER: copies the crates of the plain hashes, and the program of checks/programs/FOLDER over them,
# into $workdir, and changes to the program's folder.
enter_copy() {
    mkdir -p "$workdir/crates/$1/src"
    for file in "$top/checks/programs/$2"/*.rt.in; do
        cp "$file" "$workdir/crates/$1/src/$(basename "$file" .in)"
    done
    cp "$top/HANDLES" "$workdir/"
    tar -C "$top/crates" --exclude=out -cf - twox_words twox_plain | tar -C "$workdir/crates" -xf -
    grep -E '^(twox_words|twox_plain):' "$top/crates.txt" > "$workdir/crates.txt"
    echo "$1: twox_plain" >> "$workdir/crates.txt"
    cd "$workdir/crates/$1"
}
