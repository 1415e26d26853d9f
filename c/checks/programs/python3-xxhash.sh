# The hashes of 310 lengths, at once, in chunks, of copies and after a reset.
# Debian: 12 13
# packages: python3-xxhash
python3 "$PROGRAMS/python_hashes.py"
