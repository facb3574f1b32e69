//! The standard library, but for two things: whether the CPU has BMI2 is told by a switch too, so that one binary can
//! take the crate's portable paths and its BMI2 paths; and `cold_path`, which older compilers lack.

#[cfg(not(any(target_arch = "x86_64", feature = "native")))]
compile_error!("compare is built for x86-64: run compare/run, or give --target x86_64-unknown-linux-gnu");

pub use std::*;

#[doc(hidden)]
pub use std as own;

/// The switch.
pub mod cpu {
    use std::sync::atomic::{AtomicBool, Ordering};

    static BMI2_ALLOWED: AtomicBool = AtomicBool::new(true);

    /// From now on the crate takes its BMI2 paths, where the CPU has them, or never.
    pub fn allow_bmi2(allowed: bool) {
        BMI2_ALLOWED.store(allowed, Ordering::Relaxed);
    }

    pub fn bmi2_allowed() -> bool {
        BMI2_ALLOWED.load(Ordering::Relaxed)
    }

    /// Whether the CPU, or its emulator, has what the crate's BMI2 paths need.
    #[cfg(target_arch = "x86_64")]
    pub fn has_bmi2() -> bool {
        std::arch::is_x86_feature_detected!("bmi2") && std::arch::is_x86_feature_detected!("popcnt")
    }

    #[cfg(not(target_arch = "x86_64"))]
    pub fn has_bmi2() -> bool {
        false
    }
}

#[doc(hidden)]
#[macro_export]
macro_rules! detected_and_allowed {
    ($feature:tt) => {
        $crate::cpu::bmi2_allowed() && $crate::own::arch::is_x86_feature_detected!($feature)
    };
}

/// The crate's file for Arm's SVE2 is not among those that are compiled.
#[doc(hidden)]
#[macro_export]
macro_rules! never_detected {
    ($feature:tt) => {
        false
    };
}

pub mod arch {
    pub use crate::detected_and_allowed as is_x86_feature_detected;
    pub use crate::never_detected as is_aarch64_feature_detected;
    pub use std::arch::*;
}

pub mod hint {
    pub use std::hint::*;

    /// Marks the branch that calls it as rare.
    #[cold]
    pub fn cold_path() {}
}
