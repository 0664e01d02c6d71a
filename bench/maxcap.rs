//! 002's BO-MaxCapPath (Algorithms 4 to 6): labels from the source, taken from a heap in
//! lexicographic order, a list of permanent labels at each node.

use crate::study::{self, Number, Study};

/// Arcs grouped by one end: `begin[v]..end[v]` of `ends` are v's neighbours.
struct Grouped<T, const N: usize, const A: usize> {
    begin: [u16; N],
    end: [u16; N],
    ends: [T; A],
}

fn group<T: Number, const N: usize, const A: usize>(st: &Study, by: usize) -> Grouped<T, N, A> {
    let mut begin = [0; N];
    study::arcs(st, |arc: [T; 2]| begin[arc[by].into()] += 1);
    let mut all = 0;
    for at in &mut begin {
        (*at, all) = (all, all + *at);
    }
    let mut g = Grouped { begin, end: begin, ends: [T::NONE; A] };
    study::arcs(st, |arc: [T; 2]| {
        let next = &mut g.end[arc[by].into()];
        g.ends[*next as usize] = arc[1 - by];
        *next += 1;
    });
    g
}

impl<T: Number, const N: usize, const A: usize> Grouped<T, N, A> {
    fn of(&self, v: usize) -> &[T] {
        &self.ends[self.begin[v] as usize..self.end[v] as usize]
    }
}

/// A heap of nodes by key, with increase-key; a key is (d1, d2) as one number.
struct Heap<T, const N: usize> {
    key: [u16; N],
    place: [T; N],
    heap: [T; N],
    len: usize,
}

impl<T: Number, const N: usize> Heap<T, N> {
    fn new() -> Heap<T, N> {
        Heap { key: [0; N], place: [T::NONE; N], heap: [T::NONE; N], len: 0 }
    }

    fn raise(&mut self, v: usize, key: u16) {
        self.key[v] = key;
        let mut i = self.place[v].into();
        if self.place[v].is_none() {
            i = self.len;
            self.len += 1;
        }
        while i > 0 {
            let p = (i - 1) / 2;
            let w = self.heap[p];
            if self.key[w.into()] >= key {
                break;
            }
            self.heap[i] = w;
            self.place[w.into()] = T::new(i);
            i = p;
        }
        self.heap[i] = T::new(v);
        self.place[v] = T::new(i);
    }

    fn pop(&mut self) -> Option<(usize, u16)> {
        if self.len == 0 {
            return None;
        }
        let top = self.heap[0].into();
        let key = self.key[top];
        self.place[top] = T::NONE;
        self.len -= 1;
        if self.len > 0 {
            let v = self.heap[self.len];
            let k = self.key[v.into()];
            let mut i = 0;
            loop {
                let mut c = 2 * i + 1;
                if c >= self.len {
                    break;
                }
                if c + 1 < self.len && self.key[self.heap[c + 1].into()] > self.key[self.heap[c].into()] {
                    c += 1;
                }
                let w = self.heap[c];
                if self.key[w.into()] <= k {
                    break;
                }
                self.heap[i] = w;
                self.place[w.into()] = T::new(i);
                i = c;
            }
            self.heap[i] = v;
            self.place[v.into()] = T::new(i);
        }
        Some((top, key))
    }
}

pub fn search(file: &[u8], r: usize, out: &mut [u8]) -> Result<usize, u32> {
    let st = study::open(file)?;
    let (o1, o2) = study::round(&st, r)?;
    if st.plain {
        return run::<u8, { study::NODES }, { study::ARCS }>(&st, o1, o2, out);
    }
    run::<u16, { study::SPLIT_NODES }, { study::SPLIT_ARCS }>(&st, o1, o2, out)
}

fn run<T: Number, const N: usize, const A: usize>(st: &Study, o1: &[u8], o2: &[u8], out: &mut [u8]) -> Result<usize, u32> {
    let (u1, u2, _) = study::capacities::<T, N>(st, o1, o2);
    let before = group::<T, N, A>(st, 1);
    let after = group::<T, N, A>(st, 0);
    let mut heap = Heap::<T, N>::new();
    let mut lists = [[(0u8, 0u8); 65]; N];
    let mut many = [0u8; N];
    heap.raise(st.source, (u1[st.source] as u16) << 8 | u2[st.source] as u16);
    while let Some((i, key)) = heap.pop() {
        let (d1, d2) = ((key >> 8) as u8, key as u8);
        lists[i][many[i] as usize] = (d1, d2);
        many[i] += 1;
        // NewCandidateLabel
        let mut best = 0u16;
        for &j in before.of(i) {
            let j = j.into();
            for &(l1, l2) in &lists[j][..many[j] as usize] {
                let f1 = l1.min(u1[i]);
                let f2 = l2.min(u2[i]);
                let k = (f1 as u16) << 8 | f2 as u16;
                if k > best && f1 < d1 && f2 > d2 {
                    best = k;
                }
            }
        }
        heap.key[i] = 0;
        if best > 0 {
            heap.raise(i, best);
        }
        // RelaxationProcess
        for &j in after.of(i) {
            let j = j.into();
            let f1 = d1.min(u1[j]);
            let f2 = d2.min(u2[j]);
            let k = (f1 as u16) << 8 | f2 as u16;
            if k > heap.key[j] {
                let n = many[j] as usize;
                if n == 0 || (f1 < lists[j][n - 1].0 && f2 > lists[j][n - 1].1) {
                    heap.raise(j, k);
                }
            }
        }
    }
    let t = st.target;
    study::deliver(st.n1, st.n2, &lists[t][..many[t] as usize], out)
}
