# Perl's binding, by each of its functions.
# Debian: 13
# packages: libcrypt-xxhash-perl
perl -MCrypt::xxHash -e 'for my $n (0 .. 300) {
    my $data = join "", map { chr($_ * 7 % 256) } 1 .. $n;
    print join(" ", map { &{"Crypt::xxHash::$_"}($data, 5) }
        qw(xxhash32 xxhash64_hex xxhash3_64bits_hex xxhash3_128bits_hex)), "\n";
}'
