# Frames by Python's binding, at once and in chunks, with and without checksums.
# Debian: 13
# packages: python3-lz4
python3 "$PROGRAMS/lz4frame.py"
