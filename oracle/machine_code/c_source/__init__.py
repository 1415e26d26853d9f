"""Verifies c/source/xxhash.c, compiled by Debian's gcc and clang: the object's instructions run on symbols, like the
assembly source's."""
