# The delta transfer and the comparison of files, by each checksum of the library.
# Debian: 12 13
# packages: rsync
head -c 3000000 /usr/bin/perl > data
for choice in xxh64 xxh3 xxh128; do
    rm -rf to
    mkdir to
    { head -c 1000000 data; printf changed; tail -c 1500000 data; } > to/data
    touch -d 2000-01-01 to/data
    rsync --checksum-choice=$choice --no-whole-file --stats data to/ | grep -E '^(Literal|Matched) data'
    cmp data to/data
    rsync --checksum --checksum-choice=$choice --dry-run --itemize-changes data to/
done
