// The root of the crate's four curves. What they do not call is left out, or is a stub that is never run.
#![allow(dead_code, unused_imports)]

pub mod common;
pub mod dyadic_float;
pub mod polyeval;

pub mod exponents {
    pub mod exp2f;
    pub mod exp10f;
    pub mod expf;
    pub mod expm1f;
}

pub mod rounding {
    pub mod floor;
    pub mod round;
    pub mod round_ties_even;
    pub(crate) use floor::CpuFloor;
    pub(crate) use round::CpuRound;
    pub(crate) use round_ties_even::CpuRoundTiesEven;
}

pub mod bits {
    pub(crate) const EXP_MASK: u64 = 0x7ff0_0000_0000_0000;
}

// The four curves never work with pairs of doubles: a call would stop the program.
pub mod double_double {
    #[derive(Clone, Copy, Debug)]
    pub struct DoubleDouble {
        pub lo: f64,
        pub hi: f64,
    }

    macro_rules! not_called {
        ($($name:ident($($arg:ident: $ty:ty),*) -> $back:ty;)*) => {
            impl DoubleDouble {
                $(pub fn $name($($arg: $ty),*) -> $back {
                    $(let _ = $arg;)*
                    unreachable!("none of the four curves calls it")
                })*
            }
        };
    }

    not_called! {
        dd_f64_mul_add(a: f64, b: f64, c: f64) -> f64;
        mul_add(a: DoubleDouble, b: DoubleDouble, c: DoubleDouble) -> DoubleDouble;
        quick_mul_add(a: DoubleDouble, b: DoubleDouble, c: DoubleDouble) -> DoubleDouble;
        quick_mul_add_fma(a: DoubleDouble, b: DoubleDouble, c: DoubleDouble) -> DoubleDouble;
        quick_mult(a: DoubleDouble, b: DoubleDouble) -> DoubleDouble;
        quick_mult_fma(a: DoubleDouble, b: DoubleDouble) -> DoubleDouble;
        quick_mult_f64(a: DoubleDouble, b: f64) -> DoubleDouble;
        quick_mult_f64_fma(a: DoubleDouble, b: f64) -> DoubleDouble;
        from_exact_mult(a: f64, b: f64) -> DoubleDouble;
        from_exact_mult_fma(a: f64, b: f64) -> DoubleDouble;
    }
}
