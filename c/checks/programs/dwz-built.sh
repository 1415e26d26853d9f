# dwz, built of its source, and its own tests, of which gdb-add-index.sh fails on Debian 13 with every library. Where
# the header has no calls to inline, as ours, dwz links the library.
# Debian: 12 13
# source: dwz
build() {
    make -s
}
check() {
    make -s check > log 2>&1 || true
    grep -E '^(FAIL|# of)' log | sed 's|/.*/||'
}
