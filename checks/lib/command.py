"""The arguments of a command, whose help is the docstring of its module."""
import argparse
import os
import sys
from typing import Optional

from checks.lib.tools import TOP


def parser(doc: Optional[str], only: Optional[str] = None) -> argparse.ArgumentParser:
    """A parser of arguments with this help. `only` names what `--only WORD` selects."""
    name = os.path.relpath(os.path.realpath(sys.argv[0]), TOP)
    arguments = argparse.ArgumentParser(name, description=doc, formatter_class=argparse.RawDescriptionHelpFormatter)
    if only:
        arguments.add_argument('--only', metavar='WORD', default='', help=f'the {only} whose name has the word')
    return arguments
