//! Enumerations whose members have numbers: kinds of curves, modes, refusals and ways. The numbers are the same in C.

/// Declares one. It may get members later, so a caller's `match` needs an arm for others.
macro_rules! numbered {
    ($(#[$meta:meta])* $name:ident { $($(#[$each:meta])* $member:ident = $number:literal,)* }) => {
        $(#[$meta])*
        #[derive(Debug, Clone, Copy, PartialEq, Eq, Hash)]
        #[non_exhaustive]
        pub enum $name {
            $($(#[$each])* $member = $number,)*
        }

        impl $name {
            /// All of them, in the order of their numbers.
            pub const ALL: &'static [$name] = &[$($name::$member),*];

            /// Its number, the same as in C.
            pub const fn number(self) -> u32 {
                self as u32
            }

            /// The one that has this number, if there is one.
            pub fn from_number(number: u32) -> Option<$name> {
                $name::ALL.iter().copied().find(|member| member.number() == number)
            }
        }
    };
}
pub(crate) use numbered;
