//! Enums without fields that list all their cases.

/// The enum, and `ALL` in the order of its cases.
macro_rules! listed_enum {
    (
        $(#[$about:meta])*
        pub enum $name:ident {
            $($(#[$note:meta])* $case:ident,)*
        }
    ) => {
        $(#[$about])*
        #[derive(Clone, Copy, Debug, PartialEq, Eq, PartialOrd, Ord)]
        pub enum $name {
            $($(#[$note])* $case,)*
        }

        impl $name {
            pub const ALL: [$name; [$(stringify!($case)),*].len()] = [$($name::$case),*];
        }
    };
}

pub(crate) use listed_enum;
