//! Times of the library's calls, as ratios to peers in the same process on the same data.

mod maxcap;
mod networks;
mod plain;
mod removal;
mod searches;
mod study;
mod sweep;
mod tallies;

fn median(mut v: Vec<f64>) -> f64 {
    v.sort_by(f64::total_cmp);
    v[v.len() / 2]
}

fn main() {
    searches::tables();
    println!();
    tallies::table();
}
