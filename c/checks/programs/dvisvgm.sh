# A page of a rule, whose name is its hash.
# Debian: 12 13
# packages: dvisvgm
printf '\367\002\001\203\222\300\034\073\000\000\000\000\003\350\000' > page.dvi
printf '\213\000\000\000\001' >> page.dvi
head -c 36 /dev/zero >> page.dvi
printf '\377\377\377\377\204\000\020\000\000\000\020\000\000\214' >> page.dvi
printf '\370\000\000\000\017\001\203\222\300\034\073\000\000\000\000\003\350' >> page.dvi
printf '\000\020\000\000\000\020\000\000\000\001\000\001' >> page.dvi
printf '\371\000\000\000\106\002\337\337\337\337' >> page.dvi
for hash in xxh32 xxh64; do
    dvisvgm --page-hashes=$hash --no-fonts --verbosity=0 --output=%hd page.dvi 2> log
done
sha256sum -- *.svg
