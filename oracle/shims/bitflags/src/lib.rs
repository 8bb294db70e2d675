//! The part of bitflags 2 that the crate uses. Debian's package has version 1, which has another macro form.

/// Makes a set of flags over one integer, as `bitflags!` of version 2 does.
#[macro_export]
macro_rules! bitflags {
    (
        $(#[$outer:meta])*
        $vis:vis struct $name:ident: $bits:ty {
            $( $(#[$inner:meta])* const $flag:ident = $value:expr; )*
        }
    ) => {
        $(#[$outer])*
        $vis struct $name($bits);

        impl $name {
            $( $(#[$inner])* pub const $flag: Self = Self($value); )*

            /// Every bit is kept, also one that no flag names.
            pub const fn from_bits_retain(bits: $bits) -> Self {
                Self(bits)
            }

            pub const fn bits(&self) -> $bits {
                self.0
            }

            pub const fn contains(&self, other: Self) -> bool {
                self.0 & other.0 == other.0
            }
        }

        impl ::core::ops::BitOr for $name {
            type Output = Self;
            fn bitor(self, other: Self) -> Self {
                Self(self.0 | other.0)
            }
        }

        impl ::core::ops::BitAnd for $name {
            type Output = Self;
            fn bitand(self, other: Self) -> Self {
                Self(self.0 & other.0)
            }
        }
    };
}
