//! What vortex-mask uses of vortex-error, written anew.
use std::fmt;

#[derive(Debug)]
pub struct VortexError(pub String);

impl fmt::Display for VortexError {
    fn fmt(&self, f: &mut fmt::Formatter<'_>) -> fmt::Result {
        f.write_str(&self.0)
    }
}

impl std::error::Error for VortexError {}

pub type VortexResult<T> = Result<T, VortexError>;

pub trait VortexExpect {
    type Output;

    fn vortex_expect(self, message: &'static str) -> Self::Output;
}

impl<T> VortexExpect for Option<T> {
    type Output = T;

    #[inline]
    fn vortex_expect(self, message: &'static str) -> T {
        match self {
            Some(value) => value,
            None => panic!("{message}"),
        }
    }
}

#[macro_export]
macro_rules! vortex_panic {
    ($($message:tt)*) => {
        ::core::panic!($($message)*)
    };
}
