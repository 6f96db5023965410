// Compares Vastulm's answers with the crate's on all 2^32 patterns, and prints the digest of ours.
// A NaN counts as 0x7fc00000 on both sides.
use std::process::ExitCode;
use std::sync::atomic::{AtomicU32, Ordering};
use std::time::Instant;

unsafe extern "C" {
    fn vastulm_fill(curve: u32, arithmetic: u32, patterns: *mut u32, count: usize) -> u32;
}

const CURVES: [&str; 4] = ["exp", "exp2", "exp10", "expm1"];
const ARITHMETICS: [&str; 2] = ["two-step", "fused"];
const BLOCKS: u32 = 256;
const BLOCK: u32 = 1 << 24;
const CHUNK: usize = 1 << 12;
const NAN: u32 = 0x7fc0_0000;

type Curve = fn(f32) -> f32;

fn two_step(curve: usize) -> Curve {
    use pxfm_plain::exponents as e;
    [
        e::expf::access::two_step,
        e::exp2f::access::two_step,
        e::exp10f::access::two_step,
        e::expm1f::access::two_step,
    ][curve]
}

// What the crate runs on a processor with fma: the functions that have the feature on their own, in a build without it.
#[cfg(has_fma)]
fn fused(curve: usize) -> Curve {
    use pxfm_plain::exponents as e;
    [
        e::expf::access::published,
        e::exp2f::access::published,
        e::exp10f::access::published,
        e::expm1f::access::published,
    ][curve]
}

// With no such processor: the same by the C library's fma.
#[cfg(not(has_fma))]
fn fused(curve: usize) -> Curve {
    use pxfm_plain::exponents as e;
    [
        e::expf::access::fused,
        e::exp2f::access::fused,
        e::exp10f::access::fused,
        e::expm1f::access::fused,
    ][curve]
}

// The whole crate built for fma, as by RUSTFLAGS.
#[cfg(has_fma)]
fn fused_build(curve: usize) -> Option<Curve> {
    use pxfm_fma::exponents as e;
    let all: [Curve; 4] = [
        e::expf::access::fused,
        e::exp2f::access::fused,
        e::exp10f::access::fused,
        e::expm1f::access::fused,
    ];
    Some(all[curve])
}

#[cfg(not(has_fma))]
fn fused_build(_: usize) -> Option<Curve> {
    None
}

fn mix(h: u64, word: u32) -> u64 {
    (h ^ u64::from(word)).wrapping_mul(0x100_0000_01b3)
}

const START: u64 = 0xcbf2_9ce4_8422_2325;

// Patterns in a row that differ, with both answers at the first and at the last.
#[derive(Clone, Copy)]
struct Stretch {
    first: u32,
    last: u32,
    at_first: (u32, u32),
    at_last: (u32, u32),
}

#[derive(Default)]
struct Found {
    digest: u64,
    differ: u64,
    stretches: Vec<Stretch>,
    nans_with_other_bits: u64,
    build_differs: u64,
}

fn note(stretches: &mut Vec<Stretch>, s: Stretch) {
    match stretches.last_mut() {
        Some(t) if t.last.wrapping_add(1) == s.first => {
            t.last = s.last;
            t.at_last = s.at_last;
        }
        _ => stretches.push(s),
    }
}

fn run_block(curve: usize, arithmetic: usize, block: u32) -> Found {
    let reference = if arithmetic == 0 { two_step(curve) } else { fused(curve) };
    let second = if arithmetic == 0 { None } else { fused_build(curve) };
    let mut found = Found { digest: START, ..Found::default() };
    let mut ours = [0u32; CHUNK];
    for chunk in 0..BLOCK / CHUNK as u32 {
        let base = block * BLOCK + chunk * CHUNK as u32;
        for (i, p) in ours.iter_mut().enumerate() {
            *p = base + i as u32;
        }
        let status = unsafe { vastulm_fill(curve as u32, arithmetic as u32, ours.as_mut_ptr(), CHUNK) };
        assert_eq!(status, 0, "vastulm_fill refused");
        for (i, our) in ours.iter().enumerate() {
            let p = base + i as u32;
            found.digest = mix(found.digest, *our);
            let theirs = reference(f32::from_bits(p));
            let mut bits = theirs.to_bits();
            if theirs.is_nan() {
                found.nans_with_other_bits += u64::from(bits != NAN);
                bits = NAN;
            }
            if *our != bits {
                found.differ += 1;
                let both = (*our, bits);
                note(&mut found.stretches, Stretch { first: p, last: p, at_first: both, at_last: both });
            }
            if let Some(g) = second {
                let theirs = g(f32::from_bits(p));
                let other = if theirs.is_nan() { NAN } else { theirs.to_bits() };
                found.build_differs += u64::from(other != bits);
            }
        }
    }
    found
}

fn run_all(curve: usize, arithmetic: usize, threads: usize) -> Found {
    let next = AtomicU32::new(0);
    let mut blocks: Vec<(u32, Found)> = std::thread::scope(|scope| {
        let workers: Vec<_> = (0..threads)
            .map(|_| {
                scope.spawn(|| {
                    let mut done = Vec::new();
                    loop {
                        let block = next.fetch_add(1, Ordering::Relaxed);
                        if block >= BLOCKS {
                            return done;
                        }
                        done.push((block, run_block(curve, arithmetic, block)));
                    }
                })
            })
            .collect();
        workers.into_iter().flat_map(|w| w.join().unwrap()).collect()
    });
    blocks.sort_by_key(|(block, _)| *block);
    let mut all = Found { digest: START, ..Found::default() };
    for (_, b) in blocks {
        all.digest = mix(mix(all.digest, (b.digest >> 32) as u32), b.digest as u32);
        all.differ += b.differ;
        all.nans_with_other_bits += b.nans_with_other_bits;
        all.build_differs += b.build_differs;
        for s in b.stretches {
            note(&mut all.stretches, s);
        }
    }
    all
}

fn report(curve: usize, arithmetic: usize, threads: usize) {
    let start = Instant::now();
    let found = run_all(curve, arithmetic, threads);
    println!(
        "{} {}: {} of 4294967296 patterns differ, digest 0x{:016x}, {:.1} s",
        CURVES[curve],
        ARITHMETICS[arithmetic],
        found.differ,
        found.digest,
        start.elapsed().as_secs_f64()
    );
    for s in found.stretches.iter().take(100) {
        println!(
            "    0x{:08x}..0x{:08x}, {} patterns: ours 0x{:08x} and the crate's 0x{:08x} at the first, 0x{:08x} and 0x{:08x} at the last",
            s.first,
            s.last,
            u64::from(s.last) - u64::from(s.first) + 1,
            s.at_first.0,
            s.at_first.1,
            s.at_last.0,
            s.at_last.1
        );
    }
    if found.stretches.len() > 100 {
        println!("    and {} more stretches", found.stretches.len() - 100);
    }
    println!(
        "    NaN answers of the crate with other bits than 0x7fc00000: {}",
        found.nans_with_other_bits
    );
    if arithmetic == 1 && cfg!(has_fma) {
        println!("    the crate built for fma differs from the crate as published on {} patterns", found.build_differs);
    }
}

fn main() -> ExitCode {
    let args: Vec<String> = std::env::args().skip(1).collect();
    let chosen = match args.as_slice() {
        [] => None,
        [curve, arithmetic] => {
            match (
                CURVES.iter().position(|c| c == curve),
                ARITHMETICS.iter().position(|a| a == arithmetic),
            ) {
                (Some(c), Some(a)) => Some((c, a)),
                _ => {
                    eprintln!("no such pair: {curve} {arithmetic} (curves: exp exp2 exp10 expm1; arithmetics: two-step fused)");
                    return ExitCode::from(2);
                }
            }
        }
        _ => {
            eprintln!("usage: compare [CURVE ARITHMETIC]");
            return ExitCode::from(2);
        }
    };
    let threads = 2;
    for arithmetic in 0..2 {
        for curve in 0..4 {
            if chosen.is_none_or(|c| c == (curve, arithmetic)) {
                report(curve, arithmetic, threads);
            }
        }
    }
    ExitCode::SUCCESS
}
