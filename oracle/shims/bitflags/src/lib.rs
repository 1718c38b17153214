//! The part of the crate `bitflags` 2 that the kernel files use.

#[macro_export]
macro_rules! bitflags {
    ($(#[$attr:meta])* pub struct $name:ident: $ty:ty {
        $(const $flag:ident = $value:expr;)*
    }) => {
        $(#[$attr])*
        pub struct $name($ty);

        #[allow(dead_code)]
        impl $name {
            $(pub const $flag: Self = Self($value);)*

            pub const fn empty() -> Self {
                Self(0)
            }

            pub const fn contains(&self, other: Self) -> bool {
                self.0 & other.0 == other.0
            }

            pub fn insert(&mut self, other: Self) {
                self.0 |= other.0;
            }
        }

        impl core::ops::BitOr for $name {
            type Output = Self;
            fn bitor(self, other: Self) -> Self {
                Self(self.0 | other.0)
            }
        }
    };
}
