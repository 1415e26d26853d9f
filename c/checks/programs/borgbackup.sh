# A repository that is written, checked with its data, and taken out again.
# Debian: 12 13
# packages: borgbackup
export BORG_BASE_DIR=$PWD BORG_UNKNOWN_UNENCRYPTED_REPO_ACCESS_IS_OK=yes BORG_RELOCATED_REPO_ACCESS_IS_OK=yes
mkdir source out
head -c 3000000 /usr/bin/perl > source/a
head -c 100000 /usr/bin/perl > source/b
borg init -e none repository
borg create repository::one source
borg create repository::two source
borg check --verify-data repository
(cd out && borg extract ../repository::two)
diff -r source out/source
borg list --format '{size} {xxh64} {path}{NL}' repository::two
