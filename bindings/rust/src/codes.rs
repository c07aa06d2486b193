//! Enums of codes of laspidru.h, whose words are the library's.

/// Declares an enum of codes, with their words.
macro_rules! codes {
    ($(#[$about:meta])* $name:ident { $($(#[$of:meta])* $variant:ident = $code:ident,)* }) => {
        $(#[$about])*
        #[derive(Clone, Copy, Debug, PartialEq, Eq)]
        #[non_exhaustive]
        pub enum $name {
            $($(#[$of])* $variant,)*
        }

        impl $name {
            #[allow(dead_code)]
            pub(crate) fn of(code: u32) -> Option<Self> {
                match code {
                    $($crate::ffi::$code => Some($name::$variant),)*
                    _ => None,
                }
            }

            fn code(self) -> u32 {
                match self {
                    $($name::$variant => $crate::ffi::$code,)*
                }
            }

            /// Returns the name of the code in laspidru.h, without `LASPIDRU_`.
            pub fn name(self) -> String {
                $crate::ffi::text(self.code()).split(": ").next().unwrap_or_default().into()
            }
        }

        impl ::std::fmt::Display for $name {
            fn fmt(&self, f: &mut ::std::fmt::Formatter<'_>) -> ::std::fmt::Result {
                f.write_str(&$crate::codes::why(self.code()))
            }
        }

        impl ::std::error::Error for $name {}
    };
}
pub(crate) use codes;

/// What a code means.
pub(crate) fn why(code: u32) -> String {
    crate::ffi::text(code).split_once(": ").map_or_else(String::new, |(_, why)| why.into())
}

codes! {
    /// A limit that is out of its range. Its words say which range that is.
    BadLimit {
        /// `max_body`.
        MaxBody = BAD_MAX_BODY,
        /// `max_text`.
        MaxText = BAD_MAX_TEXT,
        /// `max_docs`.
        MaxDocs = BAD_MAX_DOCS,
        /// `max_changes`.
        MaxChanges = BAD_MAX_CHANGES,
    }
}
