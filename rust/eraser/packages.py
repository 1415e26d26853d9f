"""The two packages that are written: the crates and files of each, and their folders."""
import os
from dataclasses import dataclass

from rust.eraser.edits import EDITS, PROGRAM_EDITS, Edit
from rust.eraser.names import LIBRARY_PATHS, LIBRARY_PRELUDE, MODULES, PROGRAM_PATHS, PROGRAM_PRELUDE

RUST = os.path.dirname(os.path.dirname(os.path.abspath(__file__)))
LIBRARY = ('twox_words', 'twox_plain', 'twox_core', 'twox_hash')
PROGRAMS = """
    xxh_io xxh_program xxh xxhsum_line xxhsum_options xxhsum_audit xxhsum_fs xxhsum_output xxhsum_program
    xxhsum_app xxhsum
""".split()
# For JSON, for which the library uses serde. The programs have them in modules of the library's names.
SAVED = frozenset({'twox_plain/src/saved_text.rt', *(f'twox_plain/src/xxhash{bits}/saved.rt' for bits in (32, 64))})
# Written for neither.
LEFT_OUT = frozenset(MODULES) - SAVED


@dataclass(frozen=True)
class Package:
    name: str  # what the eraser is called with
    folder: str  # where its files go
    tree: str  # the module that they are
    read: tuple  # the crates whose files are read
    edits: tuple[Edit, ...]
    paths: dict  # of Rattle's library that Rust's lacks
    prelude: dict  # names of Rattle's prelude that Rust's lacks, or uses for something else
    # Its files that come from no file of the crates: mod.rs, whose first line marks a tree as the package's.
    roots: dict

    left_out: frozenset = LEFT_OUT

    def has(self, file):
        """True if this file of the crates that are read is written."""
        if file in self.left_out:
            return False
        is_of_programs = file in SAVED or file.split('/')[0] in PROGRAMS
        return is_of_programs == (self is PROGRAM_PACKAGE)


def root(command, title, *lines):
    return '\n'.join(['// SPDX-License-Identifier: MIT', f'//! {title}, written by `{command}`.', '', *lines, ''])


def beside(module, *lines):
    """A module of the programs' tree that is the library's, except what is declared here."""
    return root(
        'rust/erase --programs',
        f"The library's `{module}`, and what only the programs have in it",
        f'pub use crate::erased::{module}::*;',
        '',
        *lines,
    )


ERASE, ERASE_PROGRAMS = 'rust/erase', 'rust/erase --programs'
LIBRARY_ROOTS = {
    'mod.rs': root(ERASE, 'The proved crates without their contracts', *(f'pub mod {crate};' for crate in LIBRARY))
}
PROGRAM_ROOTS = {
    'mod.rs': root(
        ERASE_PROGRAMS,
        'The proved crates of the programs without their contracts',
        *(f'pub mod {crate};' for crate in ('twox_hash', 'twox_plain', *PROGRAMS)),
    ),
    'twox_hash.rs': beside('twox_hash', 'pub use super::twox_plain::{xxhash32, xxhash64};'),
    'twox_plain.rs': beside('twox_plain', 'mod saved_text;', 'pub mod xxhash32;', 'pub mod xxhash64;'),
    **{
        f'twox_plain/xxhash{bits}.rs': beside(
            f'twox_plain::xxhash{bits}', 'mod saved;', '', 'pub use saved::FormError;'
        )
        for bits in (32, 64)
    },
}
LIBRARY_PACKAGE = Package(
    ERASE,
    os.path.join(RUST, 'src', 'erased'),
    'crate::erased',
    LIBRARY,
    EDITS,
    LIBRARY_PATHS,
    LIBRARY_PRELUDE,
    LIBRARY_ROOTS,
)
PROGRAM_PACKAGE = Package(
    ERASE_PROGRAMS,
    os.path.join(RUST, 'programs', 'src', 'erased'),
    'crate::programs',
    (*LIBRARY, *PROGRAMS),
    PROGRAM_EDITS,
    PROGRAM_PATHS,
    PROGRAM_PRELUDE,
    PROGRAM_ROOTS,
)
