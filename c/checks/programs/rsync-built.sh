# rsync, built of its source, and its own tests: two ends agree on xxh128 where the library has it.
# Debian: 12
# source: rsync
build() {
    ./configure --quiet
    make -s
    ./rsync --version | grep -E 'xxh|lz4'
}
check() {
    make -s check > log 2>&1 || { tail -n 20 log; return 1; }
    grep -E '^(PASS|SKIP)' log
}
