
// Added by tools/reference/build: the curve under each arithmetic.
pub mod access {
    use super::*;
    use crate::exponents::expf::FmaBackend;

    // The two-step arithmetic. It is that in a build with no fma feature only.
    #[inline(never)]
    pub fn two_step(x: f32) -> f32 {
        @GENERIC@(x, GenericExpfBackend {})
    }

    // The fused arithmetic by the instructions that this library is built for, or by the C library's fma.
    #[inline(never)]
    pub fn fused(x: f32) -> f32 {
        @GENERIC@(x, FmaBackend {})
    }

    // What the crate itself runs on a processor that has avx and fma.
    #[inline(never)]
    pub fn published(x: f32) -> f32 {
        unsafe { @PUBLISHED@(x) }
    }
}
