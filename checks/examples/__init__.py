"""The programs of examples/ over several processes and hosts."""
