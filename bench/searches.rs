//! The time of a search a call, as a ratio to 002's BO-MaxCapPath, to the library's own method in safe
//! Rust and to removal testing, on the same files.

use crate::{maxcap, median, networks, removal, sweep};
use std::hint::black_box;
use std::time::Instant;

extern "C" {
    fn medlarbrace_search(file: *const u8, file_len: usize, round: u64, out: *mut u8, out_len: usize, written: *mut u64) -> u32;
}

fn library(file: &[u8], round: usize, out: &mut [u8]) -> Result<usize, u32> {
    let mut written = 0;
    match unsafe { medlarbrace_search(file.as_ptr(), file.len(), round as u64, out.as_mut_ptr(), out.len(), &mut written) } {
        0 => Ok(written as usize),
        number => Err(number),
    }
}

type Search = fn(&[u8], usize, &mut [u8]) -> Result<usize, u32>;

/// The library and its peers.
const SEARCHES: [(&str, Search); 4] = [("library", library), ("maxcap", maxcap::search), ("sweep", sweep::search), ("removal", removal::search)];

const ROUNDS: usize = 200;
const FILES: usize = 1000;
const REPEATS: usize = 31;

/// Files of so many rounds each.
struct Row {
    name: &'static str,
    files: Vec<Vec<u8>>,
    rounds: usize,
}

impl Row {
    fn calls(&self) -> f64 {
        (self.files.len() * self.rounds) as f64
    }
}

/// Nanoseconds a call over all rounds of all files, once.
fn once(search: Search, row: &Row) -> f64 {
    let mut out = [0u8; 133];
    let start = Instant::now();
    for file in &row.files {
        for r in 0..row.rounds {
            black_box(search(black_box(file), r, &mut out)).ok();
            black_box(&out);
        }
    }
    start.elapsed().as_nanos() as f64 / row.calls()
}

/// All records compared; the pairs of a round on average, and the looks of the worst.
fn compare(row: &Row) -> (f64, f64) {
    let (mut pairs, mut looks) = (0, 0f64);
    for (i, file) in row.files.iter().enumerate() {
        for r in 0..row.rounds {
            let [x, y, z, w] = SEARCHES.map(|(_, search)| {
                let mut out = [7u8; 133];
                (search(file, r, &mut out), out)
            });
            assert!(x.0.is_ok() && x == y && y == z && z == w, "{}: the records of file {} differ in round {}", row.name, i, r);
            pairs += x.1[2] as usize;
            looks = looks.max(sweep::looks(file, r));
        }
    }
    assert!(looks <= 1.0);
    (pairs as f64 / row.calls(), looks)
}

/// A table with the library and the first `peers` of its peers timed.
fn table(title: &str, rows: &[Row], peers: usize) {
    let timed = &SEARCHES[..=peers];
    print!("{:<20}", title);
    timed.iter().for_each(|(name, _)| print!(" {:>10}", name));
    timed[1..].iter().for_each(|(name, _)| print!(" {:>9}", format!("/ {}", name)));
    println!(" {:>6} {:>6}", "pairs", "looks");
    let mut logs = vec![0.0; peers];
    for row in rows {
        let (pairs, looks) = compare(row);
        let mut times = vec![vec![]; peers + 1];
        for _ in 0..REPEATS {
            for (i, &(_, search)) in timed.iter().enumerate() {
                times[i].push(once(search, row));
            }
        }
        let times: Vec<f64> = times.into_iter().map(median).collect();
        print!("{:<20}", row.name);
        times.iter().for_each(|t| print!(" {:>7.0} ns", t));
        for (log, t) in logs.iter_mut().zip(&times[1..]) {
            *log += (times[0] / t).ln();
            print!(" {:>9.3}", times[0] / t);
        }
        println!(" {:>6.2} {:>6.3}", pairs, looks);
    }
    print!("{:<20}{}", "geometric mean", " ".repeat(11 * (peers + 1)));
    logs.iter().for_each(|log| print!(" {:>9.3}", (log / rows.len() as f64).exp()));
    println!("\n");
}

/// Nodes fail, arcs are of kind 0.
fn nodes() -> Vec<Row> {
    let rng = &mut networks::Rng::new(7);
    let cases = [
        (networks::sparse("Arpanet size", 59, 71, rng), 28, 29),
        (networks::sparse("airplane size", 82, 134, rng), 40, 40),
        (networks::grid("grid 12 x 13", 12, 13), 64, 64),
        (networks::geometric("geometric, A 300", 130, 150, rng), 64, 64),
        (networks::geometric("geometric, A 600", 130, 300, rng), 64, 64),
        (networks::geometric("geometric, A 1,000", 130, 500, rng), 64, 64),
        (networks::ring("ring with chords", 130, 60, rng), 64, 64),
    ];
    cases.iter().map(|(net, n1, n2)| Row { name: net.name, files: vec![networks::file(net, *n1, *n2, ROUNDS, rng)], rounds: ROUNDS }).collect()
}

/// Pipes fail, 64 of each class.
fn pipes() -> Vec<Row> {
    let rng = &mut networks::Rng::new(7);
    let cases = [
        networks::sparse("airplane size", 82, 134, rng),
        networks::grid("grid 9 x 9", 9, 9),
        networks::grid("grid 12 x 13", 12, 13),
        networks::geometric("geometric, 150 pipes", 80, 150, rng),
        networks::geometric("geometric, 300 pipes", 130, 300, rng),
        networks::geometric("geometric, 500 pipes", 130, 500, rng),
        networks::ring("ring with chords", 130, 60, rng),
    ];
    cases.iter().map(|net| Row { name: net.name, files: vec![networks::piped(net, 64, 64, ROUNDS, rng)], rounds: ROUNDS }).collect()
}

/// Small studies in turn, each call another: the processor does not learn their jumps.
fn small() -> Vec<Row> {
    let rng = &mut networks::Rng::new(7);
    let rings = (0..FILES).map(|_| networks::sample(rng)).collect();
    let sixty = (0..FILES).map(|_| networks::file(&networks::sparse("", 60, 75, rng), 24, 24, 1, rng)).collect();
    vec![Row { name: "sample ring", files: rings, rounds: 1 }, Row { name: "60 nodes, A 150", files: sixty, rounds: 1 }]
}

pub fn tables() {
    table("nodes fail", &nodes(), 2);
    table("pipes fail", &pipes(), 3);
    table("1,000 networks", &small(), 2);
    println!("pairs: a round on average; looks: arcs looked at in the worst round, as a part of (n2 + 1) times the arcs, split where pipes fail");
}
