# Its own hash stressor, which verifies what the library returns.
# Debian: 12 13
# packages: stress-ng
stress-ng --hash 1 --hash-method xxh64 --hash-ops 20000 --verify --quiet
