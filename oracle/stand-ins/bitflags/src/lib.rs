//! Stands in for the crate bitflags: as much of its macro as the published styles need.

#[macro_export]
macro_rules! bitflags {
    (
        $(#[$outer:meta])*
        $visibility:vis struct $name:ident: $bits:ty {
            $($(#[$inner:meta])* const $flag:ident = $value:expr;)*
        }
    ) => {
        $(#[$outer])*
        $visibility struct $name {
            bits: $bits,
        }

        impl $name {
            $($(#[$inner])* pub const $flag: Self = Self { bits: $value };)*

            pub const fn empty() -> Self {
                Self { bits: 0 }
            }

            pub const fn bits(&self) -> $bits {
                self.bits
            }

            pub const fn is_empty(&self) -> bool {
                self.bits == 0
            }

            pub const fn contains(&self, other: Self) -> bool {
                self.bits & other.bits == other.bits
            }
        }

        impl ::std::ops::BitOr for $name {
            type Output = Self;

            fn bitor(self, other: Self) -> Self {
                Self { bits: self.bits | other.bits }
            }
        }
    };
}
