"""Benchmarks the Python package against Debian's python3-xxhash, both in one process, and prints the table of
docs/SPEED.md (bench/data/python.tsv):

    python/bench [--rounds NUMBER] [--all]

A figure is the original's time divided by ours: above 1 ours is faster. The table has the minimum and the maximum of
the four hashes. In each round both modules make each call in turn, so that both run on the same machine state; a
call's time is the minimum of its rounds. --all also prints each call's nanoseconds and ratio. It builds the package
in a folder of its own and needs no rt."""
import os
import subprocess
import sys
import tempfile

from checks.lib import command
from checks.lib.tools import install_packages
from python.checks import environment

MEASURE = os.path.join(os.path.dirname(os.path.abspath(__file__)), 'measure.py')


def main():
    parser = command.parser(__doc__)
    parser.add_argument('--rounds', type=int, default=25, help='rounds, of which each figure is the median')
    parser.add_argument('--all', action='store_true', help='measure all algorithms and lengths')
    chosen = parser.parse_args()
    install_packages(environment.PACKAGES)
    with tempfile.TemporaryDirectory(prefix='twox-python-') as folder:
        built = environment.Built(folder)
        done = subprocess.run(
            [environment.PYTHON, '-B', MEASURE, str(chosen.rounds), *['--all'] * chosen.all],
            env=environment.environment(PYTHONPATH=built.site),
        )
    sys.exit(done.returncode)
