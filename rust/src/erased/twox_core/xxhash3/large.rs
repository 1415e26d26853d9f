// SPDX-License-Identifier: MIT
// crates/twox_core/src/xxhash3/large.rt without its contracts, written by rust/erase: change that file.

//! XXH3 above 240 bytes, over any kernel: the xxHash specification, "XXH3 algorithm description (for large
//! inputs)".

use crate::rattle::simd;
mod ending;
mod four;
pub mod halves4;
pub mod lanes2;
pub mod lanes4;
pub mod lanes8;
pub mod scalar;
pub mod split2;
mod word;

use super::parts::array_at;
use super::stripes::{
    BYTES_IN_BLOCK, MANY_BYTES, STRIPES_IN_BLOCK, StripeAccumulator, start_widened,
};
use super::{Secret, Vector};
use crate::erased::twox_words::words::IntoU64;

/// The kernel of every call that names none.
pub type Kernel = crate::kernels::Kernel;

/// The values of an input: one for short inputs and one for long ones.
///
/// Each method is a function of its arguments without the kernel.
pub trait Finalize {
    /// The type of the value.
    type Output;

    /// Returns the value of an input. The caller proves that it has at most 240 bytes.
    fn small(&self, secret: Secret<'_>, seed: u64, input: &[u8]) -> Self::Output;

    /// Returns the value of an input of `len` bytes that ends with the last block, from the accumulators before that
    /// block, and the input's last 64 bytes.
    ///
    /// The caller proves that the block isn't empty and that the secret has places for its stripes.
    fn large(
        &self,
        v: impl Vector,
        acc: [u64; 8],
        last_block: &[u8],
        last_stripe: &[u8; 64],
        secret: Secret<'_>,
        len: u64,
    ) -> Self::Output;
}

// True if eight lanes take a whole one-shot, with a secret as long as the default one. No value depends on it.
#[inline(always)]
pub(crate) fn is_widened(input: &[u8]) -> bool {
    (Kernel {}).is_widened() && input.len() >= BYTES_IN_BLOCK
}

// `Algorithm::oneshot` by eight lanes, except the last 64 bytes and the merge, which four lanes do equally well. The
// values of both widths are computed from the result of one function, and no block is left to take.
#[inline(always)]
pub(crate) fn oneshot_widened<F: Finalize >(
    secret: Secret<'_>,
    input: &[u8],
    finalize: F,
) -> F::Output {
    let stripes = &input[..64 * ((input.len() - 1) / 64)];
    let taken = start_widened(stripes, secret.of_default_length());
    let last_stripe = array_at(input, input.len() - 64);
    finalize.large(
        Kernel {},
        taken.accumulators(),
        last_stripe,
        last_stripe,
        secret,
        input.len().into_u64(),
    )
}

// A caller of `Algorithm::oneshot_of` with a secret of any length.
pub(crate) struct AnyLength;

// A caller with a secret as long as the default one.
pub(crate) struct DefaultLength;

// A caller with a secret that it derived from a seed.
pub(crate) struct Derived;

/// Hashes long inputs with a kernel.
#[derive(Clone, Copy)]
pub struct Algorithm<V>(pub V);

impl<V: Vector> Algorithm<V> {
    /// Returns the value of an input by `finalize`. The caller proves that the input has at least 241 bytes.
    ///
    /// `finalize` gets the accumulators after all whole blocks except the last, which has the rest of the input. A
    /// block has as many stripes as the secret has places.
    #[inline(always)]
    pub fn oneshot<F: Finalize >(
        &self,
        secret: Secret<'_>,
        input: &[u8],
        finalize: F,
    ) -> F::Output {
        if input.len() < MANY_BYTES {
            self.oneshot_of::<F, AnyLength, false>(secret, input, finalize)
        } else {
            self.oneshot_of::<F, AnyLength, true>(secret, input, finalize)
        }
    }

    // `oneshot`, with a flag for many bytes: inputs of few bytes then keep no register for a call. Each `Caller` has
    // its own copy of the code, in which its secret's length may be known. The value depends on neither.
    #[inline(always)]
    pub(crate) fn oneshot_of<F: Finalize , Caller, const MANY: bool>(
        &self,
        secret: Secret<'_>,
        input: &[u8],
        finalize: F,
    ) -> F::Output {
        let count = stripes_before_last_block(input.len(), secret.n_stripes());
        let (blocks, last_block) = input.split_at(64 * count);
        let mut stripes = StripeAccumulator::new();
        stripes.process_oneshot::<V, MANY>(self.0, blocks, secret);
        finalize.large(
            self.0,
            stripes.accumulators(),
            last_block,
            array_at(input, input.len() - 64),
            secret,
            input.len().into_u64(),
        )
    }
}

// Returns the number of stripes before the last block, in whole blocks of `n_stripes` stripes. The last block has at
// least one byte, and may be whole.
#[inline(always)]
fn stripes_before_last_block(len: usize, n_stripes: usize) -> usize {
    let count = (len - 1) / 64;
    if count < n_stripes {
        // One block needs no division.
        return 0;
    }
    if n_stripes == STRIPES_IN_BLOCK {
        // Nor does the length of most blocks, which is a power of two.
        return count / STRIPES_IN_BLOCK * STRIPES_IN_BLOCK;
    }
    n_stripes * (count / n_stripes)
}
