"""Runs random calls of a changed module and of the original side by side in Node: one-shots, and streams whose record
is changed now and then. A change that no comparison detects must not change the result of any of these calls."""
import json
import os
import subprocess

PROGRAM = os.path.join(os.path.dirname(os.path.abspath(__file__)), "executions.mjs")
CALLS = 20_000
SECONDS = 120  # of one change: a changed module may not end


def first_difference(original: bytes, changed: bytes, seed: int) -> str:
    """Returns the first of CALLS random calls whose results differ, or an empty string."""
    request = json.dumps({"modules": [original.hex(), changed.hex()], "calls": CALLS, "seed": seed})
    try:
        done = subprocess.run(["node", PROGRAM], input=request + "\n", capture_output=True, text=True, timeout=SECONDS)
    except subprocess.TimeoutExpired:
        return "a call that does not end"
    if done.returncode:
        raise RuntimeError(f"node: {done.stderr[-300:]}")
    return done.stdout.strip()
