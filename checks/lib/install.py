"""Installs missing Debian packages:

    checks/install PACKAGE..

It waits for concurrent installations. If they can't be installed, the status is 1, with apt-get's messages."""
from checks.lib import command
from checks.lib.tools import install


def main():
    parser = command.parser(__doc__)
    parser.add_argument('packages', nargs='+', metavar='PACKAGE', help='the packages to install')
    install(set(parser.parse_args().packages))
