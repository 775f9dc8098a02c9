//! What the refusals of both kernels share: numbers and messages, and an answer taken apart.

/// Refusals that have numbers.
pub(crate) trait Numbered: Sized {
    /// The refusal of a number, if it has one.
    fn numbered(number: u32) -> Option<Self>;
}

/// 0, or a refusal's number.
pub(crate) fn done<R: Numbered>(number: u32) -> Result<(), R> {
    match number {
        0 => Ok(()),
        _ => Err(R::numbered(number).expect("the library refuses by a number of its rules")),
    }
}

/// A call's answer: its refusal's number times 2^32, plus its word.
pub(crate) fn answered<R: Numbered>(answer: u64) -> Result<u32, R> {
    done((answer >> 32) as u32).map(|()| answer as u32)
}

/// Of an enum with `ALL` and `message`: a refusal by its number, and as an error.
macro_rules! refusals {
    ($refusal:ty) => {
        impl $refusal {
            /// The refusal's number.
            pub fn number(self) -> u32 {
                self as u32
            }

            /// The refusal of a number, if it has one.
            pub fn from_number(number: u32) -> Option<$refusal> {
                <$refusal>::ALL.into_iter().find(|refusal| refusal.number() == number)
            }
        }

        impl $crate::answer::Numbered for $refusal {
            fn numbered(number: u32) -> Option<$refusal> {
                <$refusal>::from_number(number)
            }
        }

        impl std::fmt::Display for $refusal {
            fn fmt(&self, f: &mut std::fmt::Formatter<'_>) -> std::fmt::Result {
                f.write_str(self.message())
            }
        }

        impl std::error::Error for $refusal {}
    };
}
pub(crate) use refusals;
