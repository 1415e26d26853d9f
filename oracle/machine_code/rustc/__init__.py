"""Verifies the erased source of the cargo crate, compiled by this machine's rustc: the object's instructions run on
symbols, like the assembly source's."""
