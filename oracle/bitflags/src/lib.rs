//! Named bits of a tuple struct of one unsigned number.

#[macro_export]
macro_rules! bitflags {
    (impl $Flags:ident: $Bits:ty { $($(#[$attribute:meta])* const $NAME:ident = $value:expr;)* }) => {
        impl $Flags {
            $($(#[$attribute])* pub const $NAME: Self = Self($value);)*

            pub const fn empty() -> Self {
                Self(0)
            }

            pub const fn bits(&self) -> $Bits {
                self.0
            }

            pub const fn contains(&self, other: Self) -> bool {
                self.0 & other.0 == other.0
            }
        }

        impl ::core::ops::BitOrAssign for $Flags {
            fn bitor_assign(&mut self, other: Self) {
                self.0 |= other.0;
            }
        }
    };
}
