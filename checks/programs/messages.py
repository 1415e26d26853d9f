"""The messages of xxhsum, for all tests. checks/programs/answers.json has the results of the originals.

Each is bytes and ends with its newline. A name is text or bytes. Ours marks a message whose name would end its line:
see `one_line` of cases.py."""

from typing import Union

Name = Union[str, bytes]
MISSING, IO_ERROR, NOT_UTF8 = 'No such file or directory', 'Input/output error', 'The name is not UTF-8'
IMPROPER, TOO_LONG = 'Improperly formatted checksum line', 'Line too long'
WRITE_FAILED = b'Error: a failure occurred writing the output.\n'
NO_MEMORY = b'\nError: Out of memory.\n'


def joined(*parts: Union[Name, int]) -> bytes:
    return b''.join(part if isinstance(part, bytes) else str(part).encode() for part in parts)


def unopened(name: Name, why: str = MISSING, end: str = '. ') -> bytes:
    """A file that can't be opened. A list to check ends with the reason, a list of names with a full stop."""
    return joined("Error: Could not open '", name, "': ", why, end, '\n')


def unread(name: Name, why: str = IO_ERROR, end: str = '. ') -> bytes:
    """A file of which a read fails. Standard input and a list of names end with a full stop."""
    return joined("Error: Could not read '", name, "': ", why, end, '\n')


def is_folder(name: Name) -> bytes:
    return joined('xxhsum: ', name, ': Is a directory \n')


def wrong(what: str = '') -> bytes:
    """Arguments that are refused, with the reason, if there is one."""
    return joined('Wrong parameters', what and f': {what}', '\n')


def in_line(listed: Name, number: int, what: str = IMPROPER) -> bytes:
    """An error in a line of a list, or that the list breaks off there."""
    return joined(listed, ':', number, ': Error: ', what, '.\n')


def unread_listed(listed: Name, number: int, name: Name, why: str = MISSING) -> bytes:
    """A file of a line that can't be opened or read."""
    return joined(listed, ':', number, ": Could not open or read '", name, "': ", why, '.\n')


def no_proper_line(listed: Name) -> bytes:
    return joined(listed, ': no properly formatted xxHash checksum lines found\n')


def none_verified(listed: Name) -> bytes:
    return joined(listed, ': no file was verified\n')


def counts(improper: int = 0, unread: int = 0, different: int = 0) -> bytes:
    """The numbers of malformed lines, unread files and mismatches, each on a line if it isn't 0."""
    numbers = (
        (improper, 'line is improperly formatted', 'lines are improperly formatted'),
        (unread, 'listed file could not be read', 'listed files could not be read'),
        (different, 'computed checksum did NOT match', 'computed checksums did NOT match'),
    )
    return joined(*(f'{count} {one if count == 1 else more}\n' for count, one, more in numbers if count))
