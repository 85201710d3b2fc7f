//! Stands for the macro `bitfield_flag!` of bitdaemon-common, from which file_storage.rs makes `FileFlags`.
//! It can touch no answer but those on flags, and there it does what the names say: bit n is 2^n, `|` joins,
//! and a set contains another that has none but its bits.

/// Makes a type of flags over an unsigned number.
#[macro_export]
macro_rules! bitfield_flag {
    ($(#[$meta:meta])* $name:ident, $number:ty) => {
        $(#[$meta])*
        #[derive(Debug, Clone, Copy, PartialEq, Eq, Hash, Default)]
        pub struct $name($number);

        impl $name {
            /// No flag.
            pub const NONE: Self = Self(0);

            /// The flag of bit n.
            #[must_use]
            pub const fn bit(n: u32) -> Self {
                Self(1 << n)
            }

            /// The flags whose bits stand in a number.
            #[must_use]
            pub const fn from_bits(bits: $number) -> Self {
                Self(bits)
            }

            /// The number whose bits are the flags.
            #[must_use]
            pub const fn bits(self) -> $number {
                self.0
            }

            /// Whether all of `other` are among these.
            #[must_use]
            pub const fn contains(self, other: Self) -> bool {
                self.0 & other.0 == other.0
            }
        }

        impl std::ops::BitOr for $name {
            type Output = Self;

            fn bitor(self, other: Self) -> Self {
                Self(self.0 | other.0)
            }
        }
    };
}
