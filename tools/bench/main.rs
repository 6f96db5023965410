// Times ours, the crate's and the C library's curves on the same inputs, in one thread: nanoseconds per call.
use std::hint::black_box;
use std::time::Instant;

unsafe extern "C" {
    fn vastulm_exp_two_step(bits: u32) -> u32;
    fn vastulm_exp_fused(bits: u32) -> u32;
    fn vastulm_exp2_two_step(bits: u32) -> u32;
    fn vastulm_exp2_fused(bits: u32) -> u32;
    fn vastulm_exp10_two_step(bits: u32) -> u32;
    fn vastulm_exp10_fused(bits: u32) -> u32;
    fn vastulm_expm1_two_step(bits: u32) -> u32;
    fn vastulm_expm1_fused(bits: u32) -> u32;
    fn expf(x: f32) -> f32;
    fn exp2f(x: f32) -> f32;
    fn exp10f(x: f32) -> f32;
    fn expm1f(x: f32) -> f32;
}

const CURVES: [&str; 4] = ["exp", "exp2", "exp10", "expm1"];
const INPUTS: usize = 1 << 12;
const CALLS: usize = 1 << 16;
const ROUNDS: usize = 151;

// Inputs in the table range, and in the band of the polynomial (exp has none: there the band just above near one).
const TABLE: [(f32, f32); 4] = [(-87.0, 88.0), (-126.0, 127.5), (-37.5, 38.0), (-17.0, 88.0)];
const SMALL: [(f32, f32); 4] = [(-0.06, 0.06), (-0.031, 0.031), (-0.031, 0.031), (-0.062, 0.062)];

struct SplitMix(u64);

impl SplitMix {
    fn next(&mut self) -> u64 {
        self.0 = self.0.wrapping_add(0x9e37_79b9_7f4a_7c15);
        let z = (self.0 ^ (self.0 >> 30)).wrapping_mul(0xbf58_476d_1ce4_e5b9);
        let z = (z ^ (z >> 27)).wrapping_mul(0x94d0_49bb_1331_11eb);
        z ^ (z >> 31)
    }
}

fn inputs((low, high): (f32, f32), seed: u64) -> Vec<f32> {
    let mut random = SplitMix(seed);
    (0..INPUTS)
        .map(|_| low + (high - low) * ((random.next() >> 40) as f32 / (1u64 << 24) as f32))
        .collect()
}

// Each call on its own: the next one need not wait for it.
#[inline(never)]
fn spread(f: impl Fn(f32) -> f32, xs: &[f32]) -> f64 {
    let start = Instant::now();
    for _ in 0..CALLS / INPUTS {
        for x in xs {
            black_box(f(*x));
        }
    }
    start.elapsed().as_nanos() as f64 / CALLS as f64
}

// Each input depends on the answer before: x is moved by nothing that the processor can know to be nothing.
#[inline(never)]
fn chained(f: impl Fn(f32) -> f32, xs: &[f32]) -> f64 {
    let start = Instant::now();
    let mut last = 0u32;
    for _ in 0..CALLS / INPUTS {
        for x in xs {
            last = f(f32::from_bits(x.to_bits() | (last & black_box(0)))).to_bits();
        }
    }
    black_box(last);
    start.elapsed().as_nanos() as f64 / CALLS as f64
}

// The least of many short rounds, for each of the three runs, so that other work on the machine counts little.
fn measure(curve: usize, f: impl Fn(f32) -> f32 + Copy) -> [f64; 3] {
    let table = inputs(TABLE[curve], 1);
    let small = inputs(SMALL[curve], 2);
    let mut best = [f64::INFINITY; 3];
    for _ in 0..ROUNDS {
        let now = [spread(f, &table), spread(f, &small), chained(f, &table)];
        for (b, n) in best.iter_mut().zip(now) {
            *b = b.min(n);
        }
    }
    best
}

fn show(name: &str, times: [f64; 3], base: [f64; 3]) {
    let ratio = |i: usize| times[i] / base[i];
    println!(
        "  {name:<22} {:7.1} {:5.2}   {:7.1} {:5.2}   {:7.1} {:5.2}",
        times[0],
        ratio(0),
        times[1],
        ratio(1),
        times[2],
        ratio(2)
    );
}

macro_rules! curve {
    ($number:expr, $two_step:ident, $fused:ident, $module:ident, $libm:ident) => {{
        let n = $number;
        let pattern = |f: unsafe extern "C" fn(u32) -> u32| move |x: f32| f32::from_bits(unsafe { f(x.to_bits()) });
        let base = measure(n, pxfm_plain::exponents::$module::access::two_step);
        println!("{}", CURVES[n]);
        show("crate two-step", base, base);
        #[cfg(has_fma)]
        show("crate fused (fma)", measure(n, pxfm_fma::exponents::$module::access::fused), base);
        show("crate fused (C's fma)", measure(n, pxfm_plain::exponents::$module::access::fused), base);
        show("C library", measure(n, |x| unsafe { $libm(x) }), base);
        show("ours two-step", measure(n, pattern($two_step)), base);
        show("ours fused", measure(n, pattern($fused)), base);
    }};
}

fn main() {
    println!("ns per call, and the ratio to the crate's two-step; least of {ROUNDS} rounds of {CALLS} calls");
    println!("  {:<22} {:^13}   {:^13}   {:^13}", "", "table range", "small inputs", "chained");
    curve!(0, vastulm_exp_two_step, vastulm_exp_fused, expf, expf);
    curve!(1, vastulm_exp2_two_step, vastulm_exp2_fused, exp2f, exp2f);
    curve!(2, vastulm_exp10_two_step, vastulm_exp10_fused, exp10f, exp10f);
    curve!(3, vastulm_expm1_two_step, vastulm_expm1_fused, expm1f, expm1f);
}
