//! The study file as the peers read it: the same tests as the library's, in the same order. And the
//! network of a round as they search it, with a node in the middle of each arc that may fail.

/// An arc entry: from, to, kind.
pub const ARC: usize = 3;

pub struct Study<'a> {
    pub nodes: &'a [u8],
    pub arcs: &'a [u8],
    pub rounds: &'a [u8],
    pub count: usize,
    pub source: usize,
    pub target: usize,
    pub n1: usize,
    pub n2: usize,
    /// Every arc is of kind 0: the network is searched as it is.
    pub plain: bool,
}

impl<'a> Study<'a> {
    pub fn entries(&self) -> std::slice::ChunksExact<'a, u8> {
        self.arcs.chunks_exact(ARC)
    }
}

fn word(file: &[u8], at: usize) -> usize {
    u32::from_le_bytes([file[at], file[at + 1], file[at + 2], file[at + 3]]) as usize
}

/// Tests 1 to 5, 8, 32, 6 and 9.
pub fn open(file: &[u8]) -> Result<Study<'_>, u32> {
    if file.len() < 32 || file.len() > 16_777_216 {
        return Err(1);
    }
    let at = file.len() - 32;
    let [n, a, m, s, t, dn, da, dm] = [0, 4, 8, 12, 16, 20, 24, 28].map(|k| word(file, at + k));
    if !(2..=160).contains(&n) || a > 1024 || m > 100_000 {
        return Err(2);
    }
    if s >= n || t >= n || s == t {
        return Err(3);
    }
    if !(dm <= da && da <= dn && dn <= at) || n > dn - da || ARC * a > da - dm {
        return Err(4);
    }
    let nodes = &file[at - dn..at - dn + n];
    let arcs = &file[at - da..at - da + ARC * a];
    if nodes.iter().any(|&c| c > 2) {
        return Err(5);
    }
    let mut kind = 0;
    for arc in arcs.chunks_exact(ARC) {
        if arc[0] as usize >= n || arc[1] as usize >= n || arc[0] == arc[1] {
            return Err(8);
        }
        kind = kind.max(arc[2]);
    }
    if kind > 5 {
        return Err(32);
    }
    let mut n1 = nodes.iter().filter(|&&c| c == 1).count();
    let mut n2 = nodes.iter().filter(|&&c| c == 2).count();
    if kind > 0 {
        n1 += arcs.chunks_exact(ARC).filter(|arc| arc[2] % 3 == 1).count();
        n2 += arcs.chunks_exact(ARC).filter(|arc| arc[2] % 3 == 2).count();
    }
    if n1 > 64 || n2 > 64 {
        return Err(6);
    }
    if m * (n1 + n2) > dm {
        return Err(9);
    }
    Ok(Study { nodes, arcs, rounds: &file[at - dm..at - dm + m * (n1 + n2)], count: m, source: s, target: t, n1, n2, plain: kind == 0 })
}

/// Tests 10 and 11: the two orders of a round.
pub fn round<'a>(st: &Study<'a>, r: usize) -> Result<(&'a [u8], &'a [u8]), u32> {
    if r >= st.count {
        return Err(10);
    }
    let n = st.n1 + st.n2;
    let (o1, o2) = st.rounds[r * n..r * n + n].split_at(st.n1);
    if !each_once(o1) || !each_once(o2) {
        return Err(11);
    }
    Ok((o1, o2))
}

/// Each place in the class once: as many as members, every one a member's, none marked twice.
fn each_once(order: &[u8]) -> bool {
    let mut seen = [false; 64];
    for &p in order {
        if p as usize >= order.len() || seen[p as usize] {
            return false;
        }
        seen[p as usize] = true;
    }
    true
}

/// The most nodes and arcs of a network as it is, and with arcs split.
pub const NODES: usize = 160;
pub const ARCS: usize = 1024;
pub const SPLIT_NODES: usize = NODES + 2 * 64;
pub const SPLIT_ARCS: usize = 2 * ARCS + 2 * 2 * 64;

/// A node's number in the arrays of a search: a byte, or two where arcs have nodes in their middle.
pub trait Number: Copy + Into<usize> {
    const SPLIT: bool;
    const NONE: Self;
    fn new(v: usize) -> Self;
    fn is_none(self) -> bool {
        self.into() == Self::NONE.into()
    }
}

impl Number for u8 {
    const SPLIT: bool = false;
    const NONE: u8 = 255;
    fn new(v: usize) -> u8 {
        v as u8
    }
}

impl Number for u16 {
    const SPLIT: bool = true;
    const NONE: u16 = 65_535;
    fn new(v: usize) -> u16 {
        v as u16
    }
}

/// Each arc: both ways as two, one that may fail in two halves. The first of these has node N in its
/// middle, the next N + 1 and so on.
pub fn arcs<T: Number>(st: &Study, mut arc: impl FnMut([T; 2])) {
    let mut next = st.nodes.len();
    for entry in st.entries() {
        let (u, v) = (T::new(entry[0] as usize), T::new(entry[1] as usize));
        if !T::SPLIT || entry[2] % 3 == 0 {
            arc([u, v]);
            if T::SPLIT && entry[2] == 3 {
                arc([v, u]);
            }
            continue;
        }
        let m = T::new(next);
        next += 1;
        arc([u, m]);
        arc([m, v]);
        if entry[2] > 3 {
            arc([v, m]);
            arc([m, u]);
        }
    }
}

/// The members of both classes by node, nodes and then arcs: each is written into both tables, and
/// counted in that of its class.
fn members<T: Number>(st: &Study) -> [[T; 65]; 2] {
    let (mut m1, mut m2, mut n1, mut n2) = ([T::NONE; 65], [T::NONE; 65], 0, 0);
    let mut put = |class: u8, v: usize| {
        m1[n1] = T::new(v);
        m2[n2] = T::new(v);
        n1 += (class == 1) as usize;
        n2 += (class == 2) as usize;
    };
    for (v, &class) in st.nodes.iter().enumerate() {
        put(class, v);
    }
    if T::SPLIT {
        let failing = st.entries().map(|entry| entry[2] % 3).filter(|&class| class > 0);
        for (j, class) in failing.enumerate() {
            put(class, st.nodes.len() + j);
        }
    }
    [m1, m2]
}

/// Each node's capacity in both classes: its position in its own class, one past the last in the
/// other. And class 1's order by node.
pub fn capacities<T: Number, const N: usize>(st: &Study, o1: &[u8], o2: &[u8]) -> ([u8; N], [u8; N], [T; 64]) {
    let [m1, m2] = members::<T>(st);
    let mut u1 = [st.n1 as u8 + 1; N];
    let mut u2 = [st.n2 as u8 + 1; N];
    let mut order = [T::NONE; 64];
    for (k, &p) in o1.iter().enumerate() {
        order[k] = m1[p as usize];
        u1[order[k].into()] = k as u8 + 1;
    }
    for (k, &p) in o2.iter().enumerate() {
        u2[m2[p as usize].into()] = k as u8 + 1;
    }
    (u1, u2, order)
}

/// The record of a front whose pairs come with p1 falling, or 15.
pub fn deliver(n1: usize, n2: usize, pairs: &[(u8, u8)], out: &mut [u8]) -> Result<usize, u32> {
    let n = 3 + 2 * pairs.len();
    if out.len() < n {
        return Err(15);
    }
    out[0] = n1 as u8;
    out[1] = n2 as u8;
    out[2] = pairs.len() as u8;
    for (k, &(p1, p2)) in pairs.iter().enumerate() {
        out[3 + 2 * k] = p1;
        out[4 + 2 * k] = p2;
    }
    Ok(n)
}
