# A file system with chunks that are found to be equal by their hash, created and extracted.
# Debian: 13
# packages: erofs-utils
mkdir source
for i in 1 2 3; do
    head -c 1000000 /usr/bin/perl > source/$i
    printf $i >> source/$i
done
mkfs.erofs --quiet -T 0 -U 00000000-0000-0000-0000-000000000000 --all-root -zlz4 -Ededupe,fragments image source
fsck.erofs --extract=out image > log
diff -r source out
sha256sum < image
