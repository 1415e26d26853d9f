// SPDX-License-Identifier: MIT
//! Searches for a byte or for a part of a text, by the names of the crate `memchr`.

/// This many bytes are compared at once.
const AT_ONCE: usize = 32;

/// "The first place of the byte."
pub fn memchr(byte: u8, text: &[u8]) -> Option<usize> {
    let among = |part: &[u8]| {
        part.iter()
            .fold(false, |found, other| found | (*other == byte))
    };
    let skipped = AT_ONCE
        * text
            .chunks_exact(AT_ONCE)
            .take_while(|part| !among(part))
            .count();
    let place = text[skipped..].iter().position(|other| *other == byte)?;
    Some(skipped + place)
}

/// "The last place of the byte."
pub fn memrchr(byte: u8, text: &[u8]) -> Option<usize> {
    text.iter().rposition(|other| *other == byte)
}

/// Searches for a part.
pub mod memmem {
    /// "The first place of the part." It has at least one byte.
    pub fn find(text: &[u8], part: &[u8]) -> Option<usize> {
        (0..text.len()).find(|place| text[*place..].starts_with(part))
    }
}

#[cfg(test)]
mod tests {
    use super::*;

    #[test]
    fn places_are_found() {
        for length in 0..100 {
            let mut text = vec![b'a'; length];
            assert_eq!((memchr(b'x', &text), memrchr(b'x', &text)), (None, None));
            for place in 0..length {
                text[place] = b'x';
                assert_eq!(
                    (memchr(b'x', &text), memrchr(b'x', &text)),
                    (Some(place), Some(place))
                );
                text[0] = b'x';
                assert_eq!(
                    (memchr(b'x', &text), memrchr(b'x', &text)),
                    (Some(0), Some(place))
                );
                text[..=place].fill(b'a');
            }
        }
    }

    #[test]
    fn parts_are_found() {
        assert_eq!(
            memmem::find(b"a missing file (os error 2)", b" (os error "),
            Some(14)
        );
        assert_eq!(memmem::find(b" (os erro", b" (os error "), None);
        assert_eq!(memmem::find(b"", b"a"), None);
    }
}
