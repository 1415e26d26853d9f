"""The entries of the definitions in specs/, and the crates that have them."""
import os

TOP = os.path.dirname(os.path.dirname(os.path.abspath(__file__)))
CRATES = ["twox_words", "twox_plain", "twox_core"]
ENTRIES = ["xxh32", "xxh64", "xxh3_64", "xxh3_128", "default_secret", "derived_secret", "effective_secret", "counted"]
HASHES = {"32": "xxh32", "64": "xxh64", "3-64": "xxh3_64", "3-128": "xxh3_128"}
