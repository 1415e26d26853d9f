"""Debian's source package, in a fresh root of Debian 12. `c/check --source-package` runs this.

The commands of docs/C.md build and install the package for this processor. Its .dsc is then unpacked, and builds the
packages for other processors, whose libraries must have the names of Debian's libxxhash0."""
import os
import re
import tempfile

from c.checks.values import names_are_theirs
from checks.docs.printed import section_of
from checks.lib.report import Fault, Report, check, last_line
from checks.lib.roots import TAKEN, new_base, new_root
from checks.lib.tools import clean_copy, install_packages, replace_once

SUITE = 'bookworm'
PACKAGES = {'debootstrap': 'debootstrap', 'nm': 'binutils'}
# What the package of each processor says of its code.
CODE = {'amd64': 'is proved', 'arm64': 'is proved', 'i386': 'is not proved', 's390x': 'is not proved'}
LIBRARY = 'usr/lib/twox-hash/lib/libxxhash.so.0'
# Hints of lintian that are meant: the folder lib below the package's own, as LLVM has one; examples, which users read
# in the repository; and the WebAssembly modules, whose source is in crates.
LEFT = ('repeated-path-segment', 'package-does-not-install-examples', 'source-contains-prebuilt-wasm-binary')


def page(machine, architecture=None):
    """The commands that the page prints for this processor, or for another one, of which the page names s390x."""
    own, other = section_of('docs/C.md', 'Debian package', SUITE).blocks[:2]
    machine.must('cd twox_hash\n' + (other.text.replace('s390x', architecture) if architecture else own.text))


def unpacked(machine, pattern, folder):
    """A package file of the root, unpacked in a folder there. Returns the folder's path on this machine."""
    machine.must(f'rm -rf {folder}; dpkg-deb -x {pattern} {folder}')
    return machine.at(f'{TAKEN}/{folder}')


def names_agree(machine, architecture):
    machine.must(f'rm -f libxxhash0_*; apt-get download -qq libxxhash0:{architecture}')
    ours = os.path.join(unpacked(machine, f'twox-hash_*_{architecture}.deb', 'ours'), LIBRARY)
    theirs = unpacked(machine, 'libxxhash0_*.deb', 'theirs')
    (folder,) = os.listdir(os.path.join(theirs, 'usr/lib'))
    return names_are_theirs(ours, os.path.join(theirs, 'usr/lib', folder, 'libxxhash.so.0'))


def is_built(machine, architecture):
    """The package for a processor says where its code comes from, and has each name of Debian's library."""
    control = machine.must(f'dpkg-deb -f twox-hash_*_{architecture}.deb')
    check(f'Architecture: {architecture}\n' in control and CODE[architecture] in control, control[-600:])
    return names_agree(machine, architecture)


def page_builds(machine):
    page(machine)
    check(machine.must('dpkg -V twox-hash; dpkg -L twox-hash').count(LIBRARY) == 1, 'the package is not installed')
    return is_built(machine, 'amd64')


def lintian_is_silent(machine):
    """On the source package and the package for this processor."""
    machine.must('cd twox_hash && dpkg-buildpackage -us -uc')
    machine.install('lintian')
    out = machine.must(f'lintian --fail-on none --display-info --pedantic --suppress-tags {",".join(LEFT)} *.changes')
    tags = [line for line in out.splitlines() if re.match('[EWIP]: ', line)]
    check(not tags, ' / '.join(tags))
    return f'no tag except {", ".join(LEFT)}'


def other_builds(machine, architecture):
    """The unpacked source package builds for another processor."""
    machine.must('rm -rf twox_hash; dpkg-source -x twox-hash_*.dsc twox_hash')
    page(machine, architecture)
    return is_built(machine, architecture)


def missing_name_is_detected(machine):
    """Without a name, the package of this processor fails its own tests, and the other one is not like Debian's."""
    replace_once(machine.at(f'{TAKEN}/twox_hash/c/libxxhash.map'), '        XXH64;\n', '')
    status, out = machine.run('cd twox_hash && dpkg-buildpackage -b -us -uc')
    check(status != 0 and 'dh_auto_test: error' in out, f'status {status}: {last_line(out)}')
    page(machine, 's390x')
    try:
        names_agree(machine, 's390x')
    except Fault as fault:
        check(str(fault) == 'without XXH64', fault)
        return
    raise Fault('it is not detected')


def check_all(report: Report) -> None:
    install_packages(PACKAGES)
    with tempfile.TemporaryDirectory() as workdir:
        taken = os.path.join(workdir, 'taken')
        clean_copy(os.path.join(taken, 'twox_hash'))
        base = new_base(SUITE, os.path.join(workdir, 'base'))
        with new_root(base, os.path.join(workdir, 'root'), SUITE, taken, '') as machine:
            # Only the release itself: a mirror may lack the updates for some processors.
            machine.must('sed -i 1q /etc/apt/sources.list; apt-get update -qq')
            machine.install('dpkg-dev')
            report.attempt('the page, amd64', page_builds, machine)
            report.attempt('lintian', lintian_is_silent, machine)
            for architecture in list(CODE)[1:]:
                report.attempt(f'the page, {architecture}', other_builds, machine, architecture)
            report.attempt('a missing name is detected', missing_name_is_detected, machine)
