/// A kernel chosen by what the CPU has. It is chosen anew at each call, so that a switch is heeded.
pub struct CpuKernel<F> {
    choose: fn() -> F,
}

impl<F> CpuKernel<F> {
    pub const fn new(choose: fn() -> F) -> Self {
        Self { choose }
    }

    #[inline]
    pub fn get(&self) -> F {
        (self.choose)()
    }
}
