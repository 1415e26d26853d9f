"""The instruction sets of the C library on x86-64, and those of this machine."""
import os
import subprocess

from checks.lib.tools import TOP, must

C = os.path.join(TOP, 'c')


def sets_of_library() -> list[str]:
    """The instruction sets that the library is built for on x86-64, the one for every processor first."""
    return must(['make', '-s', '-C', C, 'sets']).split()


def sets_here() -> list[str]:
    """Those of them that the loader uses on this machine."""
    output = subprocess.run(['/lib64/ld-linux-x86-64.so.2', '--help'], stdout=subprocess.PIPE, text=True).stdout
    first, *above = sets_of_library()
    return [first, *(name for name in above if f'{name} (supported' in output)]
