"""CI (`checks/all`): its parts, faults that it must detect, quick tests, and the slowest proofs."""
