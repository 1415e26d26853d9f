// SPDX-License-Identifier: MIT
// crates/xxhsum_app/src/names.rt without its contracts, written by rust/erase --programs: change that file.

//! Reads names from lists of names.

use crate::rattle::prelude::Vec;
use crate::programs::xxhsum_app::texts::texts_named;
use crate::rattle::{AllocError, Global};
use crate::programs::xxh_io::streams::{Sink, Source};
use crate::programs::xxhsum_audit::parts::cut_at;
use crate::programs::xxhsum_fs::store::Store;
use crate::programs::xxhsum_options::options::NamesFrom;
use crate::programs::xxhsum_program::context::Context;
use crate::programs::xxhsum_program::stop::Stop;
use crate::programs::xxhsum_program::terminal::TimedSink;

/// Returns the names in these lists, or in the input if there is no list, in order. Returns `None` if a list can't be
/// opened or read, which is reported.
///
/// # Errors
///
/// [`Stop::OutOfMemory`] if memory runs out.
pub fn names_listed<S: Store, T: TimedSink, R: Source , E: Sink>(
    context: &Context<'_, S, T>,
    lists: &[Vec<u8>],
    input: R,
    err: &mut E,
) -> Result<Option<Vec<Vec<u8>>>, Stop> {
    let Some(texts) = texts_named(context, lists, input, err)? else {
        return Ok(None);
    };
    let names = names_in(context.alloc, end_of(context.options.names_from), &texts)?;
    Ok(Some(names))
}

// Returns the byte that ends each name of a list.
fn end_of(names_from: NamesFrom) -> u8 {
    match names_from {
        NamesFrom::Nuls => 0,
        NamesFrom::Words | NamesFrom::Lines => b'\n',
    }
}

// Returns the names in all texts.
fn names_in(alloc: Global, end: u8, texts: &[Vec<u8>]) -> Result<Vec<Vec<u8>>, AllocError> {
    let mut names = Vec::new(alloc);
    for text in texts {
        add_names(alloc, end, text, &mut names)?;
    }
    Ok(names)
}

// Appends the names in a text.
fn add_names(
    alloc: Global,
    end: u8,
    text: &[u8],
    names: &mut Vec<Vec<u8>>,
) -> Result<(), AllocError> {
    let parts = cut_at(alloc, end, text)?;
    for part in &parts {
        add_name(alloc, part, names)?;
    }
    Ok(())
}

pub(crate) fn add_name(
    alloc: Global,
    name: &[u8],
    names: &mut Vec<Vec<u8>>,
) -> Result<(), AllocError> {
    let mut owned = Vec::new(alloc);
    owned.extend_from_slice(name)?;
    names.push(owned)?;
    Ok(())
}
