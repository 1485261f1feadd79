//! Enums whose cases are the codes of a field.

/// An enum, the case of each code and the code of each case.
macro_rules! codes {
    ($(#[$about:meta])* $name:ident { $($(#[$case_about:meta])* $case:ident = $code:literal,)* }) => {
        $(#[$about])*
        #[derive(Clone, Copy, Debug, PartialEq, Eq, Hash)]
        pub enum $name {
            $($(#[$case_about])* $case,)*
        }

        impl $name {
            /// The case of a code, or None where there is no such code.
            pub fn from_raw(code: u64) -> Option<Self> {
                match code {
                    $($code => Some($name::$case),)*
                    _ => None,
                }
            }

            /// The code of a case.
            pub fn into_raw(self) -> u64 {
                match self {
                    $($name::$case => $code,)*
                }
            }
        }
    };
}
