"""Mutants of `xxhsum` that the proofs accept, since no clause covers the system's results, memory, or which files'
progress is shown: each with its file, its change, and the check and the test that must detect it. Three change the
order of the two streams; contracts refuse these too."""
from typing import NamedTuple


class Wrong(NamedTuple):
    file: str
    old: str
    new: str
    suite: str
    case: str


CALLS, ENTRIES, CHECK = 'xxhsum_fs/src/calls.rt', 'xxhsum_fs/src/entries.rt', 'xxhsum_program/src/check.rt'
EVER = 'for _ in 0..u64::MAX {'
BELOW, DEEP = 'files below a folder', 'a list, both streams one pipe'
VANISHED = 'a name that vanishes before it is looked up'
TREE = 'a tree of many names'
RUN, SHOWN = 'xxhsum_app/src/run.rt', 'ProgressDisplay::new(terminal, interactive, options)'
NONE = 'b": no properly formatted xxHash checksum lines found"'
REPORTS_NONE = f'streams.report(&[\n                self.name,\n                {NONE},\n            ]);'


def before_output(old, call, suite, case):
    """A message that is written before the output that waits."""
    return Wrong(CHECK, old, f'{call}, streams.messages());\n            streams.release();', suite, case)


WRONG = {
    'look_up_itself finds a file after an error': Wrong(
        CALLS,
        'fs::symlink_metadata(self.process, name)',
        'match fs::symlink_metadata(self.process, name) { Ok(found) => Ok(found), Err(_) => Ok(Metadata::of_file(0)) }',
        'failing',
        BELOW,
    ),
    'look_up_itself takes each error for a missing name': Wrong(
        CALLS,
        'fs::symlink_metadata(self.process, name)',
        'match fs::symlink_metadata(self.process, name) { Ok(found) => Ok(found), '
        'Err(_) => Err(io::Error::from_raw_os_error(2)) }',
        'failing',
        BELOW,
    ),
    'look_up_itself has another error for a name that has vanished': Wrong(
        CALLS,
        'fs::symlink_metadata(self.process, name)',
        'match fs::symlink_metadata(self.process, name) { Ok(found) => Ok(found), '
        'Err(_) => Err(io::Error::from_raw_os_error(5)) }',
        'failing',
        VANISHED,
    ),
    'main writes the parts of a message': Wrong(
        'xxhsum/src/main.rt',
        'WholeLines::new(FromWrite::new(rt.stderr()), true)',
        'WholeLines::new(FromWrite::new(rt.stderr()), false)',
        'pipes',
        'whole messages',
    ),
    'main shows progress on a dumb terminal': Wrong(
        'xxhsum/src/main.rt',
        'errors: shows_errors && !is_dumb(&rt),',
        'errors: shows_errors,',
        'terminals',
        'no progress on a dumb terminal',
    ),
    'look_up finds a file after an error': Wrong(
        CALLS,
        'fs::metadata(self.process, name)',
        'match fs::metadata(self.process, name) { Ok(found) => Ok(found), Err(_) => Ok(Metadata::of_file(0)) }',
        'failing',
        'an audit below a folder',
    ),
    'open takes each error for a missing file': Wrong(
        CALLS,
        """            Ok(file) => Ok(Reads::new(file)),
            Err(error) => Err(error),""",
        """            Ok(file) => Ok(Reads::new(file)),
            Err(_) => Err(io::Error::from_raw_os_error(2)),""",
        'failing',
        'one file',
    ),
    'open_directory has one error': Wrong(
        CALLS,
        """            Ok(directory) => Ok(Reads::new(directory)),
            Err(error) => Err(error),""",
        """            Ok(directory) => Ok(Reads::new(directory)),
            Err(_) => Err(io::Error::from_raw_os_error(5)),""",
        'failing',
        BELOW,
    ),
    'read_once has one error': Wrong(
        CALLS,
        'self.reader.read(buf)',
        'match self.reader.read(buf) { Ok(count) => Ok(count), Err(_) => Err(io::Error::from_raw_os_error(5)) }',
        'failing',
        'one file',
    ),
    'names_of has no memory past 8 reads': Wrong(ENTRIES, EVER, 'for _ in 0..8 {', 'many', TREE),
    'files_below has no memory past 100,000 names': Wrong(
        'xxhsum_app/src/walk.rt', EVER, 'for _ in 0..100_000 {', 'many', TREE
    ),
    'same_in has no memory past 65,536 files': Wrong(
        'xxhsum_audit/src/moves.rt',
        '            kept.push(name)?;',
        '            if kept.len() >= 65536 { return Err(AllocError); }\n            kept.push(name)?;',
        'many',
        'an audit of many equal files',
    ),
    'read_text has no memory past 100,000 reads': Wrong(
        'xxhsum_audit/src/read.rt', EVER, 'for _ in 0..100_000 {', 'many', 'a list in many reads'
    ),
    'all_arguments has no memory past 20,000': Wrong(
        'xxhsum_program/src/arguments.rt',
        'for index in 0..usize::MAX {',
        'for index in 0..20_000 {',
        'many',
        'many arguments',
    ),
    'sum_up reports a list with no line before the output that waits': before_output(
        REPORTS_NONE, f'eprint_line(&[self.name, {NONE}]', 'pipes', 'output before messages about lists with no line'
    ),
    'check_lines reports a list that breaks off before the output that waits': before_output(
        'self.report_line(number, failure.text(), streams);',
        'eprint_line_error(self.name, number, failure.text()',
        'failing',
        DEEP,
    ),
    'count_improper reports a line before the output that waits': before_output(
        'self.report_line(number, b"Improperly formatted checksum line", streams);',
        'eprint_line_error(self.name, number, b"Improperly formatted checksum line"',
        'failing',
        DEEP,
    ),
    'digest_line has no memory past 16,000 bytes': Wrong(
        'xxhsum_line/src/printed.rt',
        '    put_formed(&mut line, kind, shape, value, name, false)?;',
        '    if name.len() > 16000 { return Err(AllocError); }\n    put_formed(&mut line, kind, shape, value, name, '
        'false)?;',
        'tests',
        'xxhsum_tests',
    ),
    'main shows no progress where the output is a terminal': Wrong(
        'xxhsum/src/main.rt',
        'errors: shows_errors && !is_dumb(&rt),',
        'errors: shows_errors && !shows_output,',
        'terminals',
        'progress of a file, terminals: out, err',
    ),
    'now counts microseconds': Wrong(
        'xxhsum_program/src/terminal.rt',
        'time.as_millis()',
        'time.as_micros()',
        'terminals',
        'progress of a file, terminals: err',
    ),
    'watch begins at the time 0': Wrong(
        'xxhsum_program/src/progress_reader.rt',
        '        let started = time_of(&self.terminal, self.is_on);\n        ProgressReader::new(',
        '        let started = 0;\n        ProgressReader::new(',
        'terminals',
        'progress of input',
    ),
    'run_arguments shows no progress of an audit': Wrong(
        RUN,
        SHOWN,
        'ProgressDisplay::new(terminal, interactive, xxhsum_options::options::Options { is_quiet: options.audits, '
        '..options })',
        'terminals',
        'progress of an audit',
    ),
    'run_arguments shows no progress below folders': Wrong(
        RUN,
        SHOWN,
        'ProgressDisplay::new(terminal, interactive, xxhsum_options::options::Options { is_quiet: options.walks, '
        '..options })',
        'terminals',
        'progress below a folder',
    ),
}
