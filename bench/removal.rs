//! Removal testing: a breadth-first search from the source with the failed nodes and pipes removed.
//! For each a the first b at which the network does not hold is found by halving: it does not fall as
//! a falls.

use crate::study::{self, Study};

struct Network {
    /// The arcs out of each node: where one leads, and what it fails with, a pipe's number from N on
    /// or, where the arc never fails, that node again.
    after: Vec<Vec<(u8, u16)>>,
    u1: [u8; study::SPLIT_NODES],
    u2: [u8; study::SPLIT_NODES],
    source: usize,
    target: usize,
}

impl Network {
    fn new(st: &Study, o1: &[u8], o2: &[u8]) -> Network {
        let (mut after, mut next) = (vec![vec![]; st.nodes.len()], st.nodes.len() as u16);
        for entry in st.entries() {
            let fails = entry[2] % 3 > 0;
            let mut add = |u: u8, v: u8| after[u as usize].push((v, if fails { next } else { v as u16 }));
            add(entry[0], entry[1]);
            if entry[2] > 2 {
                add(entry[1], entry[0]);
            }
            next += fails as u16;
        }
        let (u1, u2, _) = study::capacities::<u16, { study::SPLIT_NODES }>(st, o1, o2);
        Network { after, u1, u2, source: st.source, target: st.target }
    }

    /// Whether a chain of working nodes and pipes joins source and target after a failures and b.
    fn holds(&self, a: usize, b: usize) -> bool {
        let works = |e: usize| self.u1[e] as usize > a && self.u2[e] as usize > b;
        let mut seen = [false; study::NODES];
        let mut queue = [0u8; study::NODES];
        let (mut head, mut tail) = (0, 0);
        if works(self.source) {
            seen[self.source] = true;
            queue[0] = self.source as u8;
            tail = 1;
        }
        while head < tail {
            let u = queue[head] as usize;
            head += 1;
            if u == self.target {
                return true;
            }
            for &(v, e) in &self.after[u] {
                if !seen[v as usize] && works(v as usize) && works(e as usize) {
                    seen[v as usize] = true;
                    queue[tail] = v;
                    tail += 1;
                }
            }
        }
        false
    }
}

pub fn search(file: &[u8], r: usize, out: &mut [u8]) -> Result<usize, u32> {
    let st = study::open(file)?;
    let (o1, o2) = study::round(&st, r)?;
    let net = Network::new(&st, o1, o2);
    let mut found = [(0, 0); 65];
    let (mut k, mut last) = (0, 0);
    for a in (0..=st.n1).rev() {
        let (mut low, mut high) = (last, st.n2 + 1);
        while low < high {
            let b = (low + high) / 2;
            if net.holds(a, b) {
                low = b + 1;
            } else {
                high = b;
            }
        }
        if low > last {
            last = low;
            found[k] = (a as u8 + 1, low as u8);
            k += 1;
        }
    }
    study::deliver(st.n1, st.n2, &found[..k], out)
}
