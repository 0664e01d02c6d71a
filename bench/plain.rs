//! Tallies and reliability in plain Rust, with the tests of documents 01 and 02.

/// The words in front of the cells: n1, n2, M, score.
pub const HEAD: usize = 4;
const SCORE: usize = 3;

fn is_record(r: &[u8]) -> bool {
    if r.len() < 3 || r[0] > 64 || r[1] > 64 || r[2] > r[0].min(r[1]) + 1 || r.len() != 3 + 2 * r[2] as usize {
        return false;
    }
    let (mut p1, mut p2) = (r[0] + 2, 0);
    for p in r[3..].chunks_exact(2) {
        if p[0] == 0 || p[0] >= p1 || p[1] <= p2 || p[1] > r[1] + 1 {
            return false;
        }
        (p1, p2) = (p[0], p[1]);
    }
    true
}

/// Cell by cell, left at the first that is above M, the cell below it or its neighbour; then the score.
pub fn by_cells(cells: &[u32], n1: usize, n2: usize, m: u32, score: u32) -> bool {
    let w = n2 + 1;
    let mut sum = 0u64;
    for l1 in 0..=n1 {
        for l2 in 0..=n2 {
            let i = l1 * w + l2;
            if cells[i] > m || (l1 < n1 && cells[i] > cells[i + w]) || (l2 < n2 && cells[i] > cells[i + 1]) {
                return false;
            }
            sum += cells[i] as u64;
        }
    }
    sum == score as u64
}

/// The library's own test: the last cell, and two passes over neighbours that are not left early. The pass from row to row sums
/// all cells but the last row's, in 32 bits: exact where no cell is above M.
pub fn by_passes(cells: &[u32], n1: usize, n2: usize, m: u32, score: u32) -> bool {
    let w = n2 + 1;
    let rise = |x: &[u32], y: &[u32]| x.iter().zip(y).fold(true, |all, (a, b)| all & (a <= b));
    let cells = &cells[..(n1 + 1) * w];
    let (rest, last) = cells.split_at(n1 * w);
    let (columns, sum) = rest.iter().zip(&cells[w..]).fold((true, 0u32), |(all, sum), (a, b)| (all & (a <= b), sum.wrapping_add(*a)));
    let sum = last.iter().fold(sum, |sum, a| sum.wrapping_add(*a));
    (last[n2] <= m) & columns & cells.chunks_exact(w).fold(true, |all, row| all & rise(&row[..n2], &row[1..])) & (sum == score)
}

type Sound = fn(&[u32], usize, usize, u32, u32) -> bool;

fn state(tally: &[u32], sound: Sound) -> u32 {
    if tally.len() < HEAD {
        return 21;
    }
    let (n1, n2) = (tally[0] as usize, tally[1] as usize);
    if n1 > 64 || n2 > 64 {
        return 22;
    }
    if tally.len() < HEAD + (n1 + 1) * (n2 + 1) {
        return 21;
    }
    if tally[2] > 100_000 || !sound(&tally[HEAD..], n1, n2, tally[2], tally[SCORE]) {
        return 22;
    }
    0
}

#[inline(always)]
fn ready(record: &[u8], tally: &[u32], sound: Sound) -> u32 {
    if !is_record(record) {
        return 12;
    }
    let number = state(tally, sound);
    if number != 0 {
        return number;
    }
    if (record[0] as u32, record[1] as u32) != (tally[0], tally[1]) {
        return 23;
    }
    0
}

/// Each row's cells where the record holds, from the first row to the last, by their number.
#[inline(always)]
fn heights(record: &[u8], n1: usize) -> impl Iterator<Item = usize> + '_ {
    let (mut pairs, mut height) = (record[3..].chunks_exact(2).peekable(), 0);
    (0..=n1).map(move |l1| {
        while let Some(p) = pairs.next_if(|p| p[0] as usize > n1 - l1) {
            height = p[1] as usize;
        }
        height
    })
}

/// M and each cell where the record holds changed by 1, and the score by the number of these cells.
#[inline(always)]
fn change(record: &[u8], tally: &mut [u32], step: impl Fn(&mut u32, u32)) {
    let (n1, w) = (tally[0] as usize, tally[1] as usize + 1);
    step(&mut tally[2], 1);
    let mut count = 0;
    for (row, height) in tally[HEAD..HEAD + (n1 + 1) * w].chunks_exact_mut(w).zip(heights(record, n1)) {
        row[w - height..].iter_mut().for_each(|x| step(x, 1));
        count += height as u32;
    }
    step(&mut tally[SCORE], count);
}

#[inline(always)]
pub fn add(record: &[u8], tally: &mut [u32], sound: Sound) -> u32 {
    let number = ready(record, tally, sound);
    if number != 0 {
        return number;
    }
    if tally[2] == 100_000 {
        return 24;
    }
    change(record, tally, |x, n| *x += n);
    0
}

/// M and each cell to be lowered above 0; then lowered, tested again, and raised again where it is not sound.
#[inline(always)]
pub fn remove_and_test(record: &[u8], tally: &mut [u32], sound: Sound) -> u32 {
    let number = ready(record, tally, sound);
    if number != 0 {
        return number;
    }
    let (n1, n2) = (tally[0] as usize, tally[1] as usize);
    let w = n2 + 1;
    let rows = tally[HEAD..HEAD + (n1 + 1) * w].chunks_exact(w);
    if tally[2] == 0 || !rows.zip(heights(record, n1)).all(|(row, height)| row[w - height..].iter().all(|&x| 0 < x)) {
        return 31;
    }
    change(record, tally, |x, n| *x -= n);
    if !sound(&tally[HEAD..], n1, n2, tally[2], tally[SCORE]) {
        change(record, tally, |x, n| *x += n);
        return 31;
    }
    0
}

/// Of n cells from a place on, `step` apart: the first of the last z is above the one in front of it, or above 0.
#[inline(always)]
fn starts(cells: &[u32], at: usize, n: usize, z: usize, step: usize) -> bool {
    if z == 0 {
        return true;
    }
    let i = at + (n - z) * step;
    if z == n { 0 < cells[i] } else { cells[i - step] < cells[i] }
}

/// The library's own test of 31: where the front begins to hold in each row and in each column, before anything is written.
#[inline(always)]
pub fn remove_by_edge(record: &[u8], tally: &mut [u32], sound: Sound) -> u32 {
    let number = ready(record, tally, sound);
    if number != 0 {
        return number;
    }
    let (h, w) = (tally[0] as usize + 1, tally[1] as usize + 1);
    let cells = &tally[HEAD..HEAD + h * w];
    let mut wide = [0; 66];
    record[3..].chunks_exact(2).for_each(|p| wide[p[1] as usize] = p[0] as usize);
    let rows = heights(record, h - 1).enumerate().fold(true, |all, (l1, z)| all & starts(cells, l1 * w, w, z, 1));
    let columns = (0..w).fold((true, 0), |(all, z), l2| {
        let z = z.max(wide[w - l2]);
        (all & starts(cells, l2, h, z, w), z)
    });
    if !(rows & columns.0 & (record[2] > 0 || cells[h * w - 1] < tally[2])) {
        return 31;
    }
    change(record, tally, |x, n| *x -= n);
    0
}

fn weights(n: usize, p: u32) -> [u32; 65] {
    let mut out = [0; 65];
    out[0] = 10_000_000;
    for i in 0..n {
        let mut carry = 0;
        for w in &mut out[..=i] {
            let sent = (*w as u64 * p as u64 / 1_000_000) as u32;
            *w = *w - sent + carry;
            carry = sent;
        }
        out[i + 1] = carry;
    }
    out
}

#[inline(always)]
pub fn reliability(tally: &[u32], p1: u32, p2: u32, sound: Sound) -> Result<[u64; 3], u32> {
    if p1 > 1_000_000 || p2 > 1_000_000 {
        return Err(14);
    }
    match state(tally, sound) {
        0 if tally[2] == 0 => return Err(25),
        0 => {}
        number => return Err(number),
    }
    let (n1, n2) = (tally[0] as usize, tally[1] as usize);
    let (u, v) = (weights(n1, p1), weights(n2, p2));
    let rows = tally[HEAD..HEAD + (n1 + 1) * (n2 + 1)].chunks_exact(n2 + 1);
    let sum = rows.zip(&u).map(|(row, &w)| w as u64 * row.iter().zip(&v).map(|(&c, &x)| c as u64 * x as u64).sum::<u64>()).sum::<u64>();
    let m = tally[2] as u64;
    Ok([sum, m, sum / (m * 10_000_000)])
}
