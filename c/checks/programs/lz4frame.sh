# A program in C on LZ4F: a frame in chunks, with the checksums of the whole and of each block.
# Debian: 13
# packages: lz4 liblz4-dev gcc libc6-dev
gcc -O2 "$PROGRAMS/lz4frame.c" -llz4 -o frames
./frames > frame.lz4
lz4 -q -d -c frame.lz4 | sha256sum
sha256sum frame.lz4
