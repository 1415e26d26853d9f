"""Tests of built `xxh` and `xxhsum`: stored results, terminals, pipes, lists, large input, and failing system calls."""
