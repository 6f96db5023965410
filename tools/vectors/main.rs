// Writes the list of the crate's answers: CURVE ARITHMETIC PATTERN ANSWER, a NaN as 0x7fc00000.
use std::collections::BTreeSet;
use std::io::Write;

const CURVES: [&str; 4] = ["exp", "exp2", "exp10", "expm1"];
const ARITHMETICS: [&str; 2] = ["two-step", "fused"];

fn answer(curve: usize, arithmetic: usize, pattern: u32) -> u32 {
    use pxfm_plain::exponents as e;
    #[cfg(has_fma)]
    let fused: [fn(f32) -> f32; 4] = [
        e::expf::access::published,
        e::exp2f::access::published,
        e::exp10f::access::published,
        e::expm1f::access::published,
    ];
    #[cfg(not(has_fma))]
    let fused: [fn(f32) -> f32; 4] = [
        e::expf::access::fused,
        e::exp2f::access::fused,
        e::exp10f::access::fused,
        e::expm1f::access::fused,
    ];
    let two_step: [fn(f32) -> f32; 4] = [
        e::expf::access::two_step,
        e::exp2f::access::two_step,
        e::exp10f::access::two_step,
        e::expm1f::access::two_step,
    ];
    let f = if arithmetic == 0 { two_step[curve] } else { fused[curve] };
    let y = f(f32::from_bits(pattern));
    if y.is_nan() { 0x7fc0_0000 } else { y.to_bits() }
}

// The patterns at which a band of some curve begins or ends.
const LIMITS: [u32; 27] = [
    0x0000_0000, // zero
    0x0080_0000, // the first normal number
    0x3280_0000, // near one: exp, exp2, exp10
    0x3300_0000, // near zero: expm1; exp's exponent test
    0x3b9a_209b, // exp10's inner test
    0x3d00_0000, // the polynomial of exp2 and exp10
    0x3d80_0000, // the polynomial of expm1
    0x418a_a123, // expm1 is -1 from here on down
    0x421a_209b, // exp10 overflows
    0x42b1_7218, // exp and expm1 overflow by rounding
    0x42b2_0000, // exp and expm1 overflow by the test
    0x4300_0000, // exp2 overflows
    0x7f80_0000, // infinity, and NaNs after it
    0x8000_0000,
    0x8080_0000,
    0xb25e_5bbb, // exp10 near one
    0xb25e_5bd9,
    0xb280_0000,
    0xb300_0000,
    0xbd00_0000,
    0xbd80_0000,
    0xc18a_a123,
    0xc234_9e36, // exp10 is zero
    0xc2cf_f1b5, // exp is zero
    0xc300_0000, // exp2 below -128
    0xc315_0000, // exp2 at -149
    0xc316_0000, // exp2 is zero
];

const MORE: [u32; 20] = [
    0xff80_0000, 0xff80_0001, 0xff7f_ffff, 0xffff_ffff, 0x7fff_ffff, 0x7fc0_0000, 0xffc0_0000, 0x7fc1_2345, 0x7fa0_0000, 0xffa0_0000,
    0x0000_0003, 0x0012_3456, 0x0040_0000, 0x007f_fffe, 0x8000_0003, 0x8012_3456, 0x8040_0000, 0x807f_fffe,
    0xc2ae_ac50, // exp near the least normal value
    0xc2fc_0000, // exp2 of -126
];

// Whole numbers of which a curve makes something finite and not zero, and two more on each side.
const WHOLE: [(i32, i32); 4] = [(-106, 91), (-152, 130), (-47, 41), (-20, 91)];

// Random inputs in the table range: from a pattern of each sign up to another.
const RANGE: [[(u32, u32); 2]; 4] = [
    [(0x3280_0001, 0x42b1_7218), (0xb280_0001, 0xc2cf_f1b4)],
    [(0x3280_0000, 0x42ff_ffff), (0xb280_0000, 0xc315_ffff)],
    [(0x3280_0001, 0x421a_209a), (0xb280_0001, 0xc234_9e35)],
    [(0x3300_0000, 0x42b1_7217), (0xb300_0000, 0xc18a_a122)],
];

// The splits: x times this is rounded to a whole number.
const SPLIT: [f64; 4] = [128.0, 64.0, 106.30169903639559, 128.0];

const RANDOM: usize = 120;

struct SplitMix(u64);

impl SplitMix {
    fn next(&mut self) -> u64 {
        self.0 = self.0.wrapping_add(0x9e37_79b9_7f4a_7c15);
        let z = (self.0 ^ (self.0 >> 30)).wrapping_mul(0xbf58_476d_1ce4_e5b9);
        let z = (z ^ (z >> 27)).wrapping_mul(0x94d0_49bb_1331_11eb);
        z ^ (z >> 31)
    }

    fn below(&mut self, n: u32) -> u32 {
        (u128::from(self.next()) * u128::from(n) >> 64) as u32
    }
}

// The f32 nearest to the tie (k + 1/2) / split and its neighbours, with both signs.
fn ties(curve: usize, into: &mut BTreeSet<u32>) {
    let split = SPLIT[curve];
    let highest = (f64::from(WHOLE[curve].1) * split) as u32;
    let near = 0..16u32;
    let far = (0..40u32).map(|j| j * (highest / 40) + j % 7);
    for k in near.chain(far) {
        let tie = (f64::from(k) + 0.5) / split;
        let p = (tie as f32).to_bits();
        let around: &[u32] = if k < 4 || k % 11 == 0 { &[p - 1, p, p + 1] } else { &[p] };
        for q in around {
            into.insert(*q);
            into.insert(*q | 0x8000_0000);
        }
    }
}

fn patterns(curve: usize) -> BTreeSet<u32> {
    let mut all = BTreeSet::new();
    for limit in LIMITS {
        for d in 0..5u32 {
            all.insert(limit.wrapping_add(d).wrapping_sub(2));
        }
    }
    all.extend(MORE);
    if curve == 2 {
        all.extend(0xb25e_5bba..=0xb25e_5bda);
    }
    let (low, high) = WHOLE[curve];
    all.extend((low..=high).map(|k| (k as f32).to_bits()));
    ties(curve, &mut all);
    let mut random = SplitMix(0x5eed + curve as u64);
    for _ in 0..RANDOM {
        all.insert(random.next() as u32);
        for (from, to) in RANGE[curve] {
            all.insert(from + random.below(to - from + 1));
        }
    }
    all
}

fn main() -> std::io::Result<()> {
    let mut out = std::io::BufWriter::new(std::io::stdout().lock());
    for curve in 0..4 {
        let inputs = patterns(curve);
        for arithmetic in 0..2 {
            for p in &inputs {
                writeln!(
                    out,
                    "{} {} 0x{p:08x} 0x{:08x}",
                    CURVES[curve],
                    ARITHMETICS[arithmetic],
                    answer(curve, arithmetic, *p)
                )?;
            }
        }
    }
    out.flush()
}
