//! Sets of flags: what of `bitflags!` is used here.

macro_rules! bitflags_stand_in {
    (
        $(#[$outer:meta])*
        pub struct $name:ident: $bits:ty {
            $( $(#[$inner:meta])* const $flag:ident = $value:expr; )*
        }
    ) => {
        $(#[$outer])*
        pub struct $name($bits);

        #[allow(dead_code)]
        impl $name {
            $( $(#[$inner])* pub const $flag: Self = Self($value); )*

            pub const fn empty() -> Self {
                Self(0)
            }

            pub const fn contains(&self, other: Self) -> bool {
                self.0 & other.0 == other.0
            }

            pub const fn intersects(&self, other: Self) -> bool {
                self.0 & other.0 != 0
            }
        }

        impl std::ops::BitOr for $name {
            type Output = Self;

            fn bitor(self, other: Self) -> Self {
                Self(self.0 | other.0)
            }
        }
    };
}

pub(crate) use bitflags_stand_in as bitflags;
