//! The time of an add, a remove and a reliability at n1 = n2 = 64, as ratios to plain Rust, with
//! soundness tested cell by cell and in the library's own passes.

use crate::{median, networks::Rng, plain};
use std::hint::black_box;
use std::time::Instant;

extern "C" {
    fn medlarbrace_tally_new(n1: u32, n2: u32, tally: *mut u32, tally_len: usize) -> u32;
    fn medlarbrace_tally_add(record: *const u8, record_len: usize, tally: *mut u32, tally_len: usize) -> u32;
    fn medlarbrace_tally_remove(record: *const u8, record_len: usize, tally: *mut u32, tally_len: usize) -> u32;
    fn medlarbrace_tally_score(tally: *const u32, tally_len: usize, score: *mut u32) -> u32;
    fn medlarbrace_reliability(tally: *const u32, tally_len: usize, chance1: u32, chance2: u32, sum: *mut u64, rounds: *mut u64, reliability: *mut u64) -> u32;
}

const N: usize = 64;
const WORDS: usize = plain::HEAD + (N + 1) * (N + 1);
const CALLS: usize = 500;
const REPEATS: usize = 31;

type Tally = [u32; WORDS];
type Add = fn(&[u8], &mut Tally) -> u32;
type Rate = fn(&Tally, u32, u32) -> Result<[u64; 3], u32>;

fn library_add(record: &[u8], tally: &mut Tally) -> u32 {
    unsafe { medlarbrace_tally_add(record.as_ptr(), record.len(), tally.as_mut_ptr(), tally.len()) }
}

fn library_remove(record: &[u8], tally: &mut Tally) -> u32 {
    unsafe { medlarbrace_tally_remove(record.as_ptr(), record.len(), tally.as_mut_ptr(), tally.len()) }
}

fn library_score(tally: &Tally) -> u32 {
    let mut score = 0;
    assert_eq!(0, unsafe { medlarbrace_tally_score(tally.as_ptr(), tally.len(), &mut score) });
    score
}

fn library_rate(tally: &Tally, p1: u32, p2: u32) -> Result<[u64; 3], u32> {
    let (mut s, mut m, mut r) = (0, 0, 0);
    match unsafe { medlarbrace_reliability(tally.as_ptr(), tally.len(), p1, p2, &mut s, &mut m, &mut r) } {
        0 => Ok([s, m, r]),
        number => Err(number),
    }
}

const ADDS: [Add; 3] = [library_add, |r, t| plain::add(r, t, plain::by_cells), |r, t| plain::add(r, t, plain::by_passes)];
const REMOVES: [Add; 3] = [library_remove, |r, t| plain::remove_and_test(r, t, plain::by_cells), |r, t| plain::remove_by_edge(r, t, plain::by_passes)];
const RATES: [Rate; 3] = [library_rate, |t, p, q| plain::reliability(t, p, q, plain::by_cells), |t, p, q| plain::reliability(t, p, q, plain::by_passes)];

fn fresh() -> Tally {
    let mut tally = [7; WORDS];
    assert_eq!(0, unsafe { medlarbrace_tally_new(N as u32, N as u32, tally.as_mut_ptr(), tally.len()) });
    tally
}

/// A front of k pairs.
fn record(k: usize, rng: &mut Rng) -> Vec<u8> {
    let mut places = || {
        let mut all: Vec<u8> = (1..=N as u8 + 1).collect();
        while all.len() > k {
            all.remove(rng.below(all.len()));
        }
        all
    };
    let (p1, p2) = (places(), places());
    let mut bytes = vec![N as u8, N as u8, k as u8];
    p1.iter().rev().zip(&p2).for_each(|(&x, &y)| bytes.extend([x, y]));
    bytes
}

/// The chances of the i-th call.
fn chances(i: usize) -> (u32, u32) {
    (999_000 - 997 * i as u32, 600_000 + 701 * i as u32)
}

fn row(name: &str, times: [Vec<f64>; 3]) {
    let [l, c, p] = times.map(median);
    println!("{:<20} {:>7.0} ns {:>7.0} ns {:>7.0} ns {:>9.3} {:>9.3}", name, l, c, p, l / c, l / p);
}

fn timed(call: Add, records: &[Vec<u8>], tally: &mut Tally) -> f64 {
    let start = Instant::now();
    for r in records {
        assert_eq!(0, black_box(call(black_box(r), tally)));
    }
    start.elapsed().as_nanos() as f64 / CALLS as f64
}

/// As many removes as adds, in turn, so that both are made on tallies of the same rounds; the records are added twice first.
fn moves(k: usize, rng: &mut Rng) -> Tally {
    let records: Vec<_> = (0..CALLS).map(|_| record(k, rng)).collect();
    let (mut added, mut removed) = ([vec![], vec![], vec![]], [vec![], vec![], vec![]]);
    let mut tallies = [fresh(); 3];
    for i in 0..3 {
        timed(ADDS[i], &records, &mut tallies[i]);
        timed(ADDS[i], &records, &mut tallies[i]);
    }
    let same = |tallies: &[Tally; 3]| {
        assert!(tallies[0] == tallies[1] && tallies[1] == tallies[2], "the three tallies differ");
        assert_eq!(library_score(&tallies[0]), tallies[0][plain::HEAD..].iter().sum(), "the score is not the sum of the cells");
    };
    for _ in 0..REPEATS {
        for i in 0..3 {
            removed[i].push(timed(REMOVES[i], &records, &mut tallies[i]));
        }
        same(&tallies);
        for i in 0..3 {
            added[i].push(timed(ADDS[i], &records, &mut tallies[i]));
        }
        same(&tallies);
    }
    let ratios = removed[0].iter().zip(&added[0]).map(|(r, a)| r / a).collect();
    row(&format!("add, k = {}", k), added);
    row(&format!("remove, k = {}", k), removed);
    println!("{:<20} {:.3}", "  remove / add", median(ratios));
    tallies[0]
}

fn rates(tally: &Tally) {
    let mut times = [vec![], vec![], vec![]];
    for i in 0..CALLS {
        let (p, q) = chances(i);
        let [x, y, z] = RATES.map(|f| f(tally, p, q));
        assert!(x.is_ok() && x == y && y == z, "the three rates differ");
    }
    for _ in 0..REPEATS {
        for i in 0..3 {
            let start = Instant::now();
            for call in 0..CALLS {
                let (p, q) = chances(call);
                black_box(RATES[i](black_box(tally), p, q)).ok();
            }
            times[i].push(start.elapsed().as_nanos() as f64 / CALLS as f64);
        }
    }
    row("reliability", times);
}

pub fn table() {
    let rng = &mut Rng::new(7);
    println!("{:<20} {:>10} {:>10} {:>10} {:>9} {:>9}", "n1 = n2 = 64", "library", "cells", "passes", "/ cells", "/ passes");
    moves(1, rng);
    moves(5, rng);
    let tally = moves(20, rng);
    moves(33, rng);
    moves(65, rng);
    rates(&tally);
    println!("cells: plain Rust, soundness cell by cell; passes: plain Rust, soundness in the library's passes. A remove tests its outcome");
    println!("by a second soundness test in cells, and where the front begins to hold, as the library does, in passes");
}
