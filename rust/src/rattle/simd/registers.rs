// SPDX-License-Identifier: MIT
//! Macros that define the vectors of `std::simd` over registers. The module that uses them imports `transmute` and the
//! traits of operators.

macro_rules! operator {
    ($name:ident, $n:literal, $trait:ident, $call:ident, $by:expr) => {
        impl $trait for $name {
            type Output = $name;

            #[inline(always)]
            fn $call(self, other: $name) -> $name {
                let mut out = self.0;
                let mut i = 0;
                while i < $n {
                    // SAFETY: the code that uses this module is compiled for its instructions.
                    out[i] = unsafe { $by(self.0[i], other.0[i]) };
                    i += 1;
                }
                $name(out)
            }
        }
    };
}

// A vector of `$n` registers.
macro_rules! vector {
    ($name:ident, $register:ty, $n:literal, [$item:ty; $items:literal], $bytes:ident, $add:expr, $sub:expr, $mul:expr, $xor:expr, $and:expr) => {
        #[derive(Clone, Copy)]
        pub struct $name([$register; $n]);

        impl $name {
            #[inline(always)]
            pub fn splat(value: $item) -> Self {
                Self::from_array([value; $items])
            }

            #[inline(always)]
            pub fn from_array(items: [$item; $items]) -> Self {
                // SAFETY: registers may have any bits, and the sizes are equal.
                $name(unsafe { transmute::<[$item; $items], [$register; $n]>(items) })
            }

            #[inline(always)]
            pub fn to_array(self) -> [$item; $items] {
                // SAFETY: integers may have any bits, and the sizes are equal.
                unsafe { transmute::<[$register; $n], [$item; $items]>(self.0) }
            }

            /// "Item `i` of the result is item `places[i]`."
            #[inline(always)]
            pub fn swizzle(self, places: [usize; $items]) -> Self {
                let (from, mut out) = (self.to_array(), [0; $items]);
                let mut i = 0;
                while i < $items {
                    out[i] = from[places[i]];
                    i += 1;
                }
                Self::from_array(out)
            }

            /// The same over the items of both, `other`'s after those of `self`.
            #[inline(always)]
            pub fn shuffle(self, other: Self, places: [usize; $items]) -> Self {
                let (a, b, mut out) = (self.to_array(), other.to_array(), [0; $items]);
                let mut i = 0;
                while i < $items {
                    out[i] = if places[i] < $items {
                        a[places[i]]
                    } else {
                        b[places[i] - $items]
                    };
                    i += 1;
                }
                Self::from_array(out)
            }

            // The processor is little-endian.
            #[inline(always)]
            pub fn from_le_bytes(bytes: $bytes) -> Self {
                $name(bytes.0)
            }

            #[inline(always)]
            pub fn to_le_bytes(self) -> $bytes {
                $bytes(self.0)
            }
        }

        operator!($name, $n, Add, add, $add);
        operator!($name, $n, Sub, sub, $sub);
        operator!($name, $n, Mul, mul, $mul);
        operator!($name, $n, BitXor, bitxor, $xor);
        operator!($name, $n, BitAnd, bitand, $and);
    };
}

macro_rules! bytes {
    ($name:ident, $register:ty, $n:literal, $count:literal) => {
        #[derive(Clone, Copy)]
        pub struct $name([$register; $n]);

        impl $name {
            /// Returns the first bytes of a slice, which must be long enough.
            #[inline(always)]
            pub fn from_slice(bytes: &[u8]) -> Self {
                // SAFETY: the slice has this many bytes, and the address needs no alignment.
                $name(unsafe {
                    bytes[..$count]
                        .as_ptr()
                        .cast::<[$register; $n]>()
                        .read_unaligned()
                })
            }

            #[inline(always)]
            pub fn copy_to_slice(self, bytes: &mut [u8]) {
                // SAFETY: as above.
                unsafe {
                    bytes[..$count]
                        .as_mut_ptr()
                        .cast::<[$register; $n]>()
                        .write_unaligned(self.0)
                }
            }
        }
    };
}

macro_rules! vectors {
    ($register:ty, $set:ident, $($words:ident $halves:ident $bytes:ident $n:literal $w:literal $h:literal $b:literal;)*) => {$(
        bytes!($bytes, $register, $n, $b);
        vector!($words, $register, $n, [u64; $w], $bytes, $set::add64, $set::sub64, $set::mul64, $set::xor, $set::and);
        vector!($halves, $register, $n, [u32; $h], $bytes, $set::add32, $set::sub32, $set::mul32, $set::xor, $set::and);
        operator!($words, $n, Shl, shl, $set::shl64);
        operator!($words, $n, Shr, shr, $set::shr64);
        operator!($halves, $n, Shl, shl, $set::shl32);
    )*};
}
