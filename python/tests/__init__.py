"""The package's own tests, compared with the package xxhash: `python3 -m unittest discover -s python/tests -t python`.

Both modules must be on the path. See python/check."""
