# Frames of four lengths and four forms, compressed, tested and taken apart.
# Debian: 13
# packages: lz4
for length in 0 1 70000 5000000; do
    cat /usr/bin/perl /usr/bin/perl | head -c $length > data || :
    for flags in '' --no-frame-crc '-BX -B4' '-BD -9'; do
        lz4 -q -f $flags data data.lz4
        lz4 -q -t data.lz4
        lz4 -q -d -c data.lz4 | cmp - data
        sha256sum < data.lz4
    done
done
