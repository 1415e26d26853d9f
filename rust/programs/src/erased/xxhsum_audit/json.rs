// SPDX-License-Identifier: MIT
// crates/xxhsum_audit/src/json.rt without its contracts, written by rust/erase --programs: change that file.

//! An audit as JSON (RFC 8259): an object for each result, on a line of its own.

use crate::rattle::prelude::Vec;
use crate::programs::xxhsum_audit::digest::FileDigest;
use crate::programs::xxhsum_audit::verdict::Verdict;
use crate::rattle::{AllocError, Global};
use crate::programs::xxh_io::hex::write_digits;
use crate::programs::xxhsum_line::printed::put_digest;

/// Returns the result of a line, of a name or of both as a JSON object and a newline, the only one in it. Digests have
/// their least significant byte first if `is_little`. Two results with different members have different objects. Returns
/// `AllocError` if out of memory.
pub fn verdict_json(
    alloc: Global,
    verdict: Verdict<'_>,
    is_little: bool,
) -> Result<Vec<u8>, AllocError> {
    let mut text = Vec::new(alloc);
    put_member(&mut text, b"{\"name\":", Some(verdict.told().name))?;
    put_member(&mut text, b",\"state\":", Some(verdict.state()))?;
    put_member(&mut text, b",\"from\":", verdict.other())?;
    put_digits(
        alloc,
        &mut text,
        b",\"listed\":",
        verdict.listed(),
        is_little,
    )?;
    put_digits(
        alloc,
        &mut text,
        b",\"actual\":",
        verdict.actual(),
        is_little,
    )?;
    text.extend_from_slice(b"}\n")?;
    Ok(text)
}

/// Returns the JSON object of a name whose file or directory can't be read, and a newline. Returns `AllocError` if out
/// of memory.
pub fn unreadable_json(alloc: Global, name: &[u8]) -> Result<Vec<u8>, AllocError> {
    let mut text = Vec::new(alloc);
    put_member(&mut text, b"{\"name\":", Some(name))?;
    put_member(&mut text, b",\"state\":", Some(b"unreadable"))?;
    text.extend_from_slice(b"}\n")?;
    Ok(text)
}

// Appends a member with a digest.
fn put_digits(
    alloc: Global,
    text: &mut Vec<u8>,
    before: &[u8],
    digest: Option<FileDigest<'_>>,
    is_little: bool,
) -> Result<(), AllocError> {
    if let Some(digest) = digest {
        let mut digits = Vec::new(alloc);
        put_digest(&mut digits, digest.kind, is_little, digest.value)?;
        put_member(text, before, Some(&digits))?;
    }
    Ok(())
}

// Appends a member, whose name is in the bytes before its value.
fn put_member(text: &mut Vec<u8>, before: &[u8], value: Option<&[u8]>) -> Result<(), AllocError> {
    if let Some(value) = value {
        text.extend_from_slice(before)?;
        put_string(text, value)?;
    }
    Ok(())
}

// Appends a string.
fn put_string(text: &mut Vec<u8>, bytes: &[u8]) -> Result<(), AllocError> {
    text.extend_from_slice(b"\"")?;
    put_bytes(text, is_utf8(bytes), bytes)?;
    text.extend_from_slice(b"\"")
}

// True if the bytes are UTF-8.
fn is_utf8(bytes: &[u8]) -> bool {
    match std::str::from_utf8(bytes) {
        Ok(_) => true,
        Err(_) => false,
    }
}

// Appends the bytes of a string.
fn put_bytes(text: &mut Vec<u8>, is_text: bool, bytes: &[u8]) -> Result<(), AllocError> {
    for byte in bytes {
        put_byte(text, is_text, *byte)?;
    }
    Ok(())
}

// Appends a byte of a string, escaped if it needs to be.
fn put_byte(text: &mut Vec<u8>, is_text: bool, byte: u8) -> Result<(), AllocError> {
    match byte {
        b'"' => text.extend_from_slice(b"\\\""),
        b'\\' => text.extend_from_slice(b"\\\\"),
        8 => text.extend_from_slice(b"\\b"),
        b'\t' => text.extend_from_slice(b"\\t"),
        b'\n' => text.extend_from_slice(b"\\n"),
        12 => text.extend_from_slice(b"\\f"),
        b'\r' => text.extend_from_slice(b"\\r"),
        0..=31 => put_code(text, b"\\u00", byte),
        128..=255 if !is_text => put_code(text, b"\\udc", byte),
        _ => text.extend_from_slice(&[byte]),
    }
}

// Appends these bytes, and a byte as two digits.
fn put_code(text: &mut Vec<u8>, before: &[u8], byte: u8) -> Result<(), AllocError> {
    let mut digits = [0; 2];
    write_digits(u128::from(byte), &mut digits);
    text.extend_from_slice(before)?;
    text.extend_from_slice(&digits)
}
