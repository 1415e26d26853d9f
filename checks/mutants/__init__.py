"""Mutants: edits that a contract must refuse, and those of `xxhsum` that a test must detect."""
