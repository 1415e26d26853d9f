// SPDX-License-Identifier: MIT
//! The vectors of `std::simd` that the source uses, as arrays. LLVM makes vectors of the loops where it can.
#![allow(non_camel_case_types, reason = "the names of `std::simd`")]

use core::ops::{Add, BitAnd, BitXor, Mul, Shl, Shr, Sub};

macro_rules! operator {
    ($name:ident, $item:ty, $n:literal, $trait:ident, $call:ident, |$a:ident, $b:ident| $value:expr) => {
        impl $trait for $name {
            type Output = $name;

            #[inline(always)]
            fn $call(self, other: $name) -> $name {
                let mut out = self.0;
                let mut i = 0;
                while i < $n {
                    let ($a, $b) = (self.0[i], other.0[i]);
                    out[i] = $value;
                    i += 1;
                }
                $name(out)
            }
        }
    };
}

macro_rules! vector {
    ($name:ident, $item:ty, $n:literal, $bytes:ident, $count:literal) => {
        #[derive(Clone, Copy)]
        pub struct $name([$item; $n]);

        impl $name {
            #[inline(always)]
            pub fn splat(value: $item) -> Self {
                $name([value; $n])
            }

            #[inline(always)]
            pub fn from_array(items: [$item; $n]) -> Self {
                $name(items)
            }

            #[inline(always)]
            pub fn to_array(self) -> [$item; $n] {
                self.0
            }

            /// "Item `i` of the result is item `places[i]`."
            #[inline(always)]
            pub fn swizzle(self, places: [usize; $n]) -> Self {
                let mut out = self.0;
                let mut i = 0;
                while i < $n {
                    out[i] = self.0[places[i]];
                    i += 1;
                }
                $name(out)
            }

            /// The same over the items of both, `other`'s after those of `self`.
            #[inline(always)]
            pub fn shuffle(self, other: Self, places: [usize; $n]) -> Self {
                let mut out = self.0;
                let mut i = 0;
                while i < $n {
                    out[i] = if places[i] < $n {
                        self.0[places[i]]
                    } else {
                        other.0[places[i] - $n]
                    };
                    i += 1;
                }
                $name(out)
            }

            #[inline(always)]
            pub fn from_le_bytes(bytes: $bytes) -> Self {
                const SIZE: usize = $count / $n;
                let mut out = [0; $n];
                let mut i = 0;
                while i < $n {
                    let mut item = [0; SIZE];
                    item.copy_from_slice(&bytes.0[SIZE * i..SIZE * i + SIZE]);
                    out[i] = <$item>::from_le_bytes(item);
                    i += 1;
                }
                $name(out)
            }

            #[inline(always)]
            pub fn to_le_bytes(self) -> $bytes {
                const SIZE: usize = $count / $n;
                let mut out = [0; $count];
                let mut i = 0;
                while i < $n {
                    out[SIZE * i..SIZE * i + SIZE].copy_from_slice(&self.0[i].to_le_bytes());
                    i += 1;
                }
                $bytes(out)
            }
        }

        operator!($name, $item, $n, Add, add, |a, b| a.wrapping_add(b));
        operator!($name, $item, $n, Sub, sub, |a, b| a.wrapping_sub(b));
        operator!($name, $item, $n, Mul, mul, |a, b| a.wrapping_mul(b));
        operator!($name, $item, $n, BitXor, bitxor, |a, b| a ^ b);
        operator!($name, $item, $n, BitAnd, bitand, |a, b| a & b);
        operator!($name, $item, $n, Shl, shl, |a, b| a << b);
        operator!($name, $item, $n, Shr, shr, |a, b| a >> b);
    };
}

macro_rules! bytes {
    ($($name:ident, $count:literal;)*) => {
        $(#[derive(Clone, Copy)]
        pub struct $name([u8; $count]);

        impl $name {
            /// Returns the first bytes of a slice, which must be long enough.
            #[inline(always)]
            pub fn from_slice(bytes: &[u8]) -> Self {
                let mut out = [0; $count];
                out.copy_from_slice(&bytes[..$count]);
                $name(out)
            }

            #[inline(always)]
            pub fn copy_to_slice(self, bytes: &mut [u8]) {
                bytes[..$count].copy_from_slice(&self.0);
            }
        })*
    };
}

bytes! {
    u8x16, 16;
    u8x32, 32;
    u8x64, 64;
}

vector!(u64x2, u64, 2, u8x16, 16);
vector!(u64x4, u64, 4, u8x32, 32);
vector!(u64x8, u64, 8, u8x64, 64);
vector!(u32x4, u32, 4, u8x16, 16);
vector!(u32x8, u32, 8, u8x32, 32);

impl u32x4 {
    /// Returns the items as wider ones.
    #[inline(always)]
    #[allow(
        clippy::extra_unused_type_parameters,
        reason = "callers name it, as in Rattle"
    )]
    pub fn cast<T>(self) -> u64x4 {
        u64x4(self.0.map(u64::from))
    }
}
