//! The library's own method in safe Rust.

use crate::study::{self, Number, Study};

pub fn search(file: &[u8], r: usize, out: &mut [u8]) -> Result<usize, u32> {
    choose::<false>(file, r, out, &mut [0; 2])
}

/// How many arcs a search looks at, the same ones again included, as a part of (n2 + 1) x arcs.
pub fn looks(file: &[u8], r: usize) -> f64 {
    let mut looks = [0; 2];
    choose::<true>(file, r, &mut [0; 133], &mut looks).ok();
    looks[0] as f64 / looks[1].max(1) as f64
}

fn choose<const COUNT: bool>(file: &[u8], r: usize, out: &mut [u8], looks: &mut [usize; 2]) -> Result<usize, u32> {
    let st = study::open(file)?;
    let (o1, o2) = study::round(&st, r)?;
    if st.plain {
        return run::<u8, { study::NODES }, { study::ARCS }, COUNT>(&st, o1, o2, out, looks);
    }
    run::<u16, { study::SPLIT_NODES }, { study::SPLIT_ARCS }, COUNT>(&st, o1, o2, out, looks)
}

fn run<T: Number, const N: usize, const A: usize, const COUNT: bool>(
    st: &Study,
    o1: &[u8],
    o2: &[u8],
    out: &mut [u8],
    looks: &mut [usize; 2],
) -> Result<usize, u32> {
    let (entry, cap, order) = study::capacities::<T, N>(st, o1, o2);
    let mut first = [0u16; N];
    let mut more = [0u16; A];
    // where each arc begins; of a network as it is the file has it
    let mut begin = [T::NONE; A];
    let mut d = 0;
    study::arcs(st, |[u, v]: [T; 2]| {
        if T::SPLIT {
            begin[d] = u;
        }
        more[d] = first[v.into()];
        d += 1;
        first[v.into()] = d as u16;
    });
    let mut label = [0u8; N];
    let mut stack = [T::NONE; N];
    let mut wait = [T::NONE; 66];
    let mut found = [(0u8, 0u8); 65];
    let mut k = 0;
    let (s, t) = (st.source, st.target);
    label[t] = cap[t];
    let mut x = entry[s].min(entry[t]);
    let mut node = T::new(t);
    let mut last = 0;
    while x > 0 {
        let mut level = label[node.into()];
        loop {
            stack[0] = node;
            let mut top = 1;
            while top > 0 && label[s] < level {
                top -= 1;
                let mut i = first[stack[top].into()] as usize;
                while i > 0 {
                    if COUNT {
                        looks[0] += 1;
                    }
                    let p = i - 1;
                    i = more[p] as usize;
                    let from = if T::SPLIT { begin[p] } else { T::new(st.arcs[study::ARC * p] as usize) };
                    let u = from.into();
                    let c = level.min(cap[u]);
                    if label[u] < c {
                        label[u] = c;
                        if c < level {
                            wait[c as usize] = from;
                        } else if x <= entry[u] {
                            stack[top] = from;
                            top += 1;
                        }
                    }
                }
            }
            let mut m = level - 1;
            while m > label[s] && wait[m as usize].is_none() {
                m -= 1;
            }
            if m <= label[s] {
                break;
            }
            node = wait[m as usize];
            wait[m as usize] = T::NONE;
            level = m;
        }
        if label[s] > last {
            last = label[s];
            found[k] = (x, last);
            k += 1;
        }
        x -= 1;
        while x > 0 && label[order[x as usize - 1].into()] <= last {
            x -= 1;
        }
        if x > 0 {
            node = order[x as usize - 1];
        }
    }
    if COUNT {
        looks[1] = (st.n2 + 1) * d;
    }
    study::deliver(st.n1, st.n2, &found[..k], out)
}
