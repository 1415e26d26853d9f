// SPDX-License-Identifier: MIT
// crates/xxhsum_program/src/check.rt without its contracts, written by rust/erase --programs: change that file.

//! Checks lists of checksum lines against the files that they name.

use crate::rattle::prelude::Vec;
use crate::programs::xxhsum_program::context::Context;
use crate::programs::xxhsum_program::entry::{Found, compare};
use crate::programs::xxhsum_program::lines::{Lines, Next};
use crate::programs::xxhsum_program::outcome::OFFERED;
use crate::programs::xxhsum_program::progress_reader::{ProgressDisplay, ProgressReader};
use crate::programs::xxhsum_program::stderr::eprint_line;
use crate::programs::xxhsum_program::stdout::{line_of, print, print_line};
use crate::programs::xxhsum_program::stop::Stop;
use crate::programs::xxhsum_program::streams::Streams;
use crate::programs::xxhsum_program::terminal::TimedSink;
use crate::rattle::itoa::Buffer;
use crate::rattle::{AllocError, Global};
use crate::programs::xxh_io::heap::buffer;
use crate::programs::xxh_io::streams::{Sink, Source};
use crate::programs::xxh_io::waiting::Waiting;
use crate::programs::xxhsum_fs::store::Store;
use crate::programs::xxhsum_line::entry::{Meaning, meaning_of};
use crate::programs::xxhsum_options::options::Options;
use crate::programs::xxhsum_output::output::Output;

/// Counts of a list's lines, by result.
#[derive(Clone, Copy, Debug, PartialEq, Eq)]
pub struct Report {
    /// Well-formed lines.
    pub proper: u64,
    /// Malformed lines, including those longer than 32,767 bytes.
    pub improper: u64,
    /// Well-formed lines whose file could not be opened or read to its end. With `--ignore-missing`, missing files are
    /// not counted.
    pub unread: u64,
    /// Well-formed lines whose file matches.
    pub same: u64,
    /// Well-formed lines whose file doesn't match.
    pub different: u64,
    /// True if a line is too long to be checked, or a read of the list failed.
    pub is_broken: bool,
}

impl Report {
    // Returns the report of an empty list.
    fn new() -> Report {
        Report {
            proper: 0,
            improper: 0,
            unread: 0,
            same: 0,
            different: 0,
            is_broken: false,
        }
    }

    // Counts a well-formed line by `found`. A missing file that is ignored is counted neither as read nor as unread.
    fn count(&mut self, found: &Found, ignores_missing: bool) {
        self.proper = self.proper.saturating_add(1);
        match found {
            Found::Same => self.same = self.same.saturating_add(1),
            Found::Different => self.different = self.different.saturating_add(1),
            Found::Unread(reason) => {
                if !(ignores_missing && reason.is_missing()) {
                    self.unread = self.unread.saturating_add(1);
                }
            }
        }
    }

    // Returns this report for a list that breaks off.
    fn with_broken_end(self) -> Report {
        Report {
            is_broken: true,
            ..self
        }
    }

    /// True if the list is good: it has a well-formed line, each file was read and matches, no line is too long, no
    /// read of the list failed, and, under `--strict`, no line is malformed.
    pub fn is_good(&self, is_strict: bool) -> bool {
        self.proper > 0
            && self.different == 0
            && self.unread == 0
            && (!is_strict || self.improper == 0)
            && !self.is_broken
    }

    // True if the list has no well-formed line, and didn't break off before its first line except comments.
    fn has_no_line(&self) -> bool {
        self.proper == 0 && !(self.is_broken && self.improper == 0)
    }

    // True if `--ignore-missing` is given and no file matches.
    fn is_unverified(&self, ignores_missing: bool) -> bool {
        ignores_missing && self.same == 0
    }

    // True if the list is good by `options`. With `--ignore-missing` at least one file has to match.
    fn passes(&self, options: Options) -> bool {
        self.is_good(options.is_strict) && !self.is_unverified(options.ignores_missing)
    }
}

// The message about a line longer than 32,767 bytes.
const TOO_LONG: &[u8] = b"Line too long";

// A line of a list. Its text is `None` if it is too long.
#[derive(Clone, Copy)]
struct ListLine<'a> {
    number: u64,
    text: Option<&'a [u8]>,
}

// The inputs of the check of one list.
#[derive(Clone, Copy)]
struct ListCheck<'a, S, T> {
    alloc: Global,
    store: &'a S,
    options: Options,
    progress: ProgressDisplay<T>,
    name: &'a [u8],
}

impl<S: Store, T: TimedSink> ListCheck<'_, S, T> {
    // Checks the lines of `source`, prints and reports the results, and returns whether the list is good.
    fn check<R: Source , W: Output, E: Sink>(
        &self,
        source: ProgressReader<R, T>,
        streams: &mut Streams<W, E>,
    ) -> Result<bool, Stop> {
        let unverified = self.unverified_line()?;
        let report = self.check_lines(source, streams)?;
        self.sum_up(&report, &unverified, streams)?;
        Ok(report.passes(self.options))
    }

    // Checks the lines of `source`: up to its end, to a line without an end, or to the last line number.
    #[inline(never)]
    fn check_lines<R: Source , W: Output, E: Sink>(
        &self,
        source: ProgressReader<R, T>,
        streams: &mut Streams<W, E>,
    ) -> Result<Report, Stop> {
        let mut room = buffer(self.alloc, OFFERED)?;
        let buf = room.as_mut_slice();
        let mut lines = Lines::new(source);
        let mut report = Report::new();
        for number in 1..u64::MAX {
            match lines.next() {
                Next::End => return Ok(report),
                Next::Failed => {
                    let failure = lines.failure();
                    self.report_line(number, failure.text(), streams);
                    return Ok(report.with_broken_end());
                }
                Next::Endless => {
                    self.report_line(number, TOO_LONG, streams);
                    return Ok(report.with_broken_end());
                }
                Next::Line => {
                    let line = ListLine {
                        number,
                        text: lines.line(),
                    };
                    self.check_line(line, &mut report, buf, streams)?;
                }
            }
        }
        Ok(report)
    }

    // Compares the file that `line` names, counts the line and prints the result. Comments are not counted.
    fn check_line<W: Output, E: Sink>(
        &self,
        line: ListLine<'_>,
        report: &mut Report,
        buf: &mut [u8],
        streams: &mut Streams<W, E>,
    ) -> Result<(), Stop> {
        let Some(text) = line.text else {
            self.count_too_long(line.number, report, streams);
            return Ok(());
        };
        let entry = match meaning_of(self.alloc, text, self.options.is_little_endian)? {
            Meaning::Entry(entry) => entry,
            Meaning::Comment => return Ok(()),
            Meaning::Malformed => {
                self.count_improper(line.number, report, streams);
                return Ok(());
            }
        };
        let found = compare(self.store, self.progress, &entry, buf);
        report.count(&found, self.options.ignores_missing);
        if is_silent(self.options, &found) {
            return Ok(());
        }
        self.print_found(line.number, &entry.name, &found, &mut streams.out)
    }

    // Counts a malformed line. Reports it if `--warn` is given.
    fn count_improper<W: Output, E: Sink>(
        &self,
        number: u64,
        report: &mut Report,
        streams: &mut Streams<W, E>,
    ) {
        report.improper = report.improper.saturating_add(1);
        if self.options.warns {
            self.report_line(number, b"Improperly formatted checksum line", streams);
        }
    }

    // Counts a line that is too long, and reports it.
    fn count_too_long<W: Output, E: Sink>(
        &self,
        number: u64,
        report: &mut Report,
        streams: &mut Streams<W, E>,
    ) {
        *report = Report {
            improper: report.improper.saturating_add(1),
            ..report.with_broken_end()
        };
        self.report_line(number, TOO_LONG, streams);
    }

    // Reports what is wrong with line `number`.
    fn report_line<W: Output, E: Sink>(&self, number: u64, what: &[u8], streams: &mut Streams<W, E>) {
        streams.release();
        eprint_line_error(self.name, number, what, streams.messages());
    }

    // Prints the result of line `number`.
    fn print_found<W: Output>(
        &self,
        number: u64,
        name: &[u8],
        found: &Found,
        out: &mut W,
    ) -> Result<(), Stop> {
        match found {
            Found::Same => print_line(self.alloc, &[name, b": OK"], out),
            Found::Different => print_line(self.alloc, &[name, b": FAILED"], out),
            Found::Unread(reason) => {
                print_unread(self.alloc, self.name, number, name, reason.text(), out)
            }
        }
    }

    // Returns the line "no file was verified".
    fn unverified_line(&self) -> Result<Vec<u8>, AllocError> {
        line_of(self.alloc, &[self.name, b": no file was verified"])
    }

    // Reports a list without a well-formed line, unless it broke off before, and prints the summary of a list.
    fn sum_up<W: Output, E: Sink>(
        &self,
        report: &Report,
        unverified: &[u8],
        streams: &mut Streams<W, E>,
    ) -> Result<(), Stop> {
        if report.has_no_line() {
            streams.report(&[
                self.name,
                b": no properly formatted xxHash checksum lines found",
            ]);
        }
        self.print_summary(report, unverified, &mut streams.out)
    }

    // Prints the summary of a list.
    fn print_summary<W: Output>(
        &self,
        report: &Report,
        unverified: &[u8],
        out: &mut W,
    ) -> Result<(), Stop> {
        self.print_counts(report, out)?;
        self.print_unverified(report, unverified, out)
    }

    // Prints `unverified` if `--ignore-missing` is given and no file matches.
    fn print_unverified<W: Output>(
        &self,
        report: &Report,
        unverified: &[u8],
        out: &mut W,
    ) -> Result<(), Stop> {
        if report.is_unverified(self.options.ignores_missing) {
            return print(unverified, out);
        }
        Ok(())
    }

    // Prints the numbers of malformed lines, unread files and mismatches, unless no line is well-formed.
    fn print_counts<W: Output>(&self, report: &Report, out: &mut W) -> Result<(), Stop> {
        if report.proper == 0 || self.options.is_status_only {
            return Ok(());
        }
        print_count(
            report.improper,
            b" line is improperly formatted\n",
            b" lines are improperly formatted\n",
            out,
        )?;
        print_count(
            report.unread,
            b" listed file could not be read\n",
            b" listed files could not be read\n",
            out,
        )?;
        print_count(
            report.different,
            b" computed checksum did NOT match\n",
            b" computed checksums did NOT match\n",
            out,
        )
    }
}

// True if nothing is printed about a file.
fn is_silent(options: Options, found: &Found) -> bool {
    match found {
        _ if options.is_status_only => true,
        Found::Same => options.is_quiet,
        Found::Different => false,
        Found::Unread(reason) => options.ignores_missing && reason.is_missing(),
    }
}

// Prints why the file of line `number` of `list` could not be read.
fn print_unread<'a, W: Output>(
    alloc: Global,
    list: &'a [u8],
    number: u64,
    name: &'a [u8],
    why: &'a [u8],
    out: &mut W,
) -> Result<(), Stop> {
    let mut digits = Buffer::new();
    let digits = digits.format(number).as_bytes();
    let parts: [&[u8]; 8] = [
        list,
        b":",
        digits,
        b": Could not open or read '",
        name,
        b"': ",
        why,
        b".",
    ];
    print_line(alloc, &parts, out)
}

/// Reports what is wrong with line `number` of `list`.
pub fn eprint_line_error<E: Sink>(list: &[u8], number: u64, what: &[u8], err: &mut E) {
    let mut digits = Buffer::new();
    let digits = digits.format(number).as_bytes();
    eprint_line(&[list, b":", digits, b": Error: ", what, b"."], err);
}

// Maximum length of a line with a count, in bytes.
const MOST_COUNT_LINE: usize = 80;

// Prints `count` followed by `one` or `more`, unless it is 0.
fn print_count<W: Output>(count: u64, one: &[u8], more: &[u8], out: &mut W) -> Result<(), Stop> {
    if count == 0 {
        return Ok(());
    }
    let mut line = Waiting::<MOST_COUNT_LINE>::new();
    line.append(Buffer::new().format(count).as_bytes());
    line.append(word_for(count, one, more));
    match line.flush(out) {
        Ok(()) => Ok(()),
        Err(_) => Err(Stop::WriteFailed),
    }
}

fn word_for<'a>(count: u64, one: &'a [u8], more: &'a [u8]) -> &'a [u8] {
    if count == 1 { one } else { more }
}

/// Checks the lines of the list `name`. Prints for each well-formed line whether its file matches, and at the end how
/// many lines failed. Returns whether the list is good.
///
/// A file that can't be read is printed as such, and the next line is checked. A line longer than 32,767 bytes is
/// reported, counts as malformed, and makes the list fail; later lines are still checked. A failed read of the list is
/// reported and ends it. With `--ignore-missing`, missing files are neither printed nor counted; if then no file
/// matches, that is printed and the list fails.
///
/// # Errors
///
/// Both errors end the check at once; the results before it are printed. [`Stop::WriteFailed`] if a write to standard
/// output fails, or failed before, and [`Stop::OutOfMemory`] if memory for a line runs out.
pub fn check_list<S: Store, T: TimedSink, R: Source , W: Output, E: Sink>(
    context: &Context<'_, S, T>,
    name: &[u8],
    source: R,
    streams: &mut Streams<W, E>,
) -> Result<bool, Stop> {
    if streams.out.failed() {
        return Err(Stop::WriteFailed);
    }
    let list = ListCheck {
        alloc: context.alloc,
        store: context.store,
        options: context.options,
        progress: context.progress,
        name,
    };
    list.check(context.progress.watch(source), streams)
}

// Checks the list `name`. A list that can't be opened is reported, and fails.
fn check_named<S: Store, T: TimedSink, W: Output, E: Sink>(
    context: &Context<'_, S, T>,
    name: &[u8],
    streams: &mut Streams<W, E>,
) -> Result<bool, Stop> {
    match context.progress.open(context.store, name) {
        Ok(file) => {
            let list = ListCheck {
                alloc: context.alloc,
                store: context.store,
                options: context.options,
                progress: context.progress,
                name,
            };
            list.check(file, streams)
        }
        Err(refusal) => {
            streams.report(&[b"Error: Could not open '", name, b"': ", refusal.text()]);
            Ok(false)
        }
    }
}

/// Checks each list of `names`. Returns whether all are good. A list that can't be opened is reported, and fails.
///
/// # Errors
///
/// As [`check_list`], at once. Later lists are not opened.
pub fn check_lists<S: Store, T: TimedSink, W: Output, E: Sink>(
    context: &Context<'_, S, T>,
    names: &[Vec<u8>],
    streams: &mut Streams<W, E>,
) -> Result<bool, Stop> {
    if streams.out.failed() {
        return Err(Stop::WriteFailed);
    }
    let mut all = true;
    for name in names {
        let good = check_named(context, name, streams)?;
        all = all && good;
    }
    Ok(all)
}
