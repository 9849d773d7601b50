//! Enums with the numbers that they have at the C boundary.

/// Gives an enum, whose cases are listed by number, `ALL`, `number` and `from_number`.
macro_rules! numbered {
    ($name:ident: $($case:ident),+ $(,)?) => {
        impl $name {
            /// Every one, by number.
            pub const ALL: [$name; [$($name::$case),+].len()] = [$($name::$case),+];

            /// Its number at the C boundary.
            pub fn number(self) -> u32 {
                self as u32
            }

            /// The one with this number.
            pub fn from_number(number: u32) -> Option<$name> {
                $name::ALL.into_iter().find(|one| one.number() == number)
            }
        }
    };
}
pub(crate) use numbered;
