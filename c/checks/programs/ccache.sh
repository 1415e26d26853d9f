# A file that is compiled once, and then found by its hash, of XXH3.
# Debian: 13
# packages: ccache gcc libc6-dev
export CCACHE_DIR=$PWD/cache
echo 'int main(void) { return 0; }' > program.c
for _ in 1 2 3; do
    ccache gcc -c program.c -o program.o
    sha256sum < program.o
done
ccache --print-stats | grep -E '^(direct_cache_hit|cache_miss|internal_error)'
