"""Runs the tests of Debian's borgbackup that cover these checksums, on one library or another."""
import sys

import pytest
from borg.logger import setup_logging

setup_logging()
sys.exit(
    pytest.main(
        ['-q', '-p', 'no:cacheprovider', '--pyargs', 'borg.testsuite.checksums', 'borg.testsuite.file_integrity']
    )
)
