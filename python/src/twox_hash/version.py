"""Versions: of the package `xxhash` that has this interface, and of this package."""

VERSION = '3.2.0'
VERSION_TUPLE = (3, 2, 0)
__version__ = '0.1.0'
