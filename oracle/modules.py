"""Compares the two WebAssembly modules, web/twox_hash.wasm and web/twox_hash_simd.wasm, with the definitions of the
hashes in specs/, for all bytes, all seeds and all bytes of a secret: the modules' instructions run on symbols instead
of numbers, and must produce the definition's term.

  oracle/modules                  every length of XXH32 and XXH64, by induction; one-shots of XXH3 and streams in
                                  samples; refusals; the table of instructions compared with Node; 60 changes
  oracle/modules --all            every length of XXH3 too, each stream, 2,000 changes
  oracle/modules --only WORD      only the tasks with that word
  oracle/modules --jobs NUMBER    number of processes (default: 1)

It needs python3 and node, and installs node with apt-get if it is missing. The last line is "N passed, M failed"; the
exit status is 1 if one failed. docs/VERIFICATION.md lists what to trust."""
import shutil

from checks.lib import tools
from oracle.machine_code.wasm import tasks
from oracle.machine_code.wasm.module import Malformed
from oracle.symbolic_terms import processes


def main():
    given = processes.options(__doc__, jobs=1).parse_args()
    tools.install(set() if shutil.which("node") else {"nodejs"})
    print(*tasks.checksums(), sep="\n", flush=True)
    try:
        chosen = tasks.choose(given, tasks.machines())
    except Malformed as error:
        print(f"FAILED the modules: {error}", "0 passed, 1 failed", sep="\n")
        return 1
    return processes.run(chosen, given.jobs)
