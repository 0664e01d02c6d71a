//! Study files to measure on, made from a seed.

pub struct Rng(u64);

impl Rng {
    pub fn new(seed: u64) -> Rng {
        Rng(seed)
    }

    pub fn below(&mut self, n: usize) -> usize {
        self.0 = self.0.wrapping_mul(6364136223846793005).wrapping_add(1442695040888963407);
        ((self.0 >> 33) % n as u64) as usize
    }

    fn shuffle<T>(&mut self, v: &mut [T]) {
        for i in (1..v.len()).rev() {
            v.swap(i, self.below(i + 1));
        }
    }
}

pub struct Network {
    pub name: &'static str,
    pub n: usize,
    pub target: usize,
    pub edges: Vec<(usize, usize)>,
}

/// Each edge as two arcs of kind 0; source 0; n1 nodes of class 1 and n2 of class 2.
pub fn file(net: &Network, n1: usize, n2: usize, rounds: usize, rng: &mut Rng) -> Vec<u8> {
    let mut inner: Vec<usize> = (1..net.n).filter(|&v| v != net.target).collect();
    rng.shuffle(&mut inner);
    let mut classes = vec![0; net.n];
    inner[..n1].iter().for_each(|&v| classes[v] = 1);
    inner[n1..n1 + n2].iter().for_each(|&v| classes[v] = 2);
    let mut edges = net.edges.clone();
    rng.shuffle(&mut edges);
    let arcs = edges.iter().flat_map(|&(u, v)| [(u, v, 0), (v, u, 0)]).collect::<Vec<_>>();
    write(&classes, &arcs, net.target, &inner[..n1], &inner[n1..n1 + n2], rounds, rng)
}

/// Nodes that never fail; n1 and n2 edges as both-way arcs of classes 1 and 2, the others by turns as
/// a both-way arc and as two of kind 0.
pub fn piped(net: &Network, n1: usize, n2: usize, rounds: usize, rng: &mut Rng) -> Vec<u8> {
    let mut edges = net.edges.clone();
    rng.shuffle(&mut edges);
    let mut arcs = Vec::new();
    for (i, (u, v)) in edges.into_iter().enumerate() {
        match i {
            _ if i < n1 => arcs.push((u, v, 4)),
            _ if i < n1 + n2 => arcs.push((u, v, 5)),
            _ if i % 2 == 0 => arcs.push((u, v, 3)),
            _ => arcs.extend([(u, v, 0), (v, u, 0)]),
        }
    }
    rng.shuffle(&mut arcs);
    let of = |kind| (0..arcs.len()).filter(|&i| arcs[i].2 == kind).map(|i| net.n + i).collect::<Vec<_>>();
    write(&vec![0; net.n], &arcs, net.target, &of(4), &of(5), rounds, rng)
}

/// Document 01's ring of 6 nodes, an arc more or less or as it is; classes and arcs in any order.
pub fn sample(rng: &mut Rng) -> Vec<u8> {
    let mut inner = [2, 3, 4, 5];
    rng.shuffle(&mut inner);
    let mut classes = [0, 0, 1, 1, 1, 1];
    inner[2..].iter().for_each(|&v| classes[v] = 2);
    let mut arcs = vec![(0, 2, 0), (2, 4, 0), (4, 1, 0), (0, 3, 0), (3, 1, 0), (0, 5, 0), (5, 1, 0)];
    rng.shuffle(&mut arcs);
    match rng.below(3) {
        0 => drop(arcs.pop()),
        1 => arcs.push((rng.below(3), 3 + rng.below(3), 0)),
        _ => {}
    }
    write(&classes, &arcs, 1, &inner[..2], &inner[2..], 1, rng)
}

/// A study file with orders at random. c1 and c2 are the members of the classes by element, the arc at
/// place i being element N + i; the file names them by place in the class.
fn write(classes: &[u8], arcs: &[(usize, usize, u8)], target: usize, c1: &[usize], c2: &[usize], rounds: usize, rng: &mut Rng) -> Vec<u8> {
    let (n, mut c1, mut c2) = (classes.len(), c1.to_vec(), c2.to_vec());
    let mut bytes = classes.to_vec();
    arcs.iter().for_each(|&(u, v, kind)| bytes.extend([u as u8, v as u8, kind]));
    for _ in 0..rounds {
        rng.shuffle(&mut c1);
        rng.shuffle(&mut c2);
        for class in [&c1, &c2] {
            bytes.extend(class.iter().map(|e| class.iter().filter(|x| *x < e).count() as u8));
        }
    }
    let dm = rounds * (c1.len() + c2.len());
    let da = dm + 3 * arcs.len();
    for w in [n, arcs.len(), rounds, 0, target, da + n, da, dm] {
        bytes.extend((w as u32).to_le_bytes());
    }
    bytes
}

pub fn grid(name: &'static str, rows: usize, columns: usize) -> Network {
    let mut edges = Vec::new();
    for r in 0..rows {
        for c in 0..columns {
            let v = r * columns + c;
            if c + 1 < columns {
                edges.push((v, v + 1));
            }
            if r + 1 < rows {
                edges.push((v, v + columns));
            }
        }
    }
    Network { name, n: rows * columns, target: rows * columns - 1, edges }
}

/// A ring with chords between nodes at random.
pub fn ring(name: &'static str, n: usize, chords: usize, rng: &mut Rng) -> Network {
    let mut edges: Vec<_> = (0..n).map(|v| (v, (v + 1) % n)).collect();
    while edges.len() < n + chords {
        let (u, v) = (rng.below(n), rng.below(n));
        if u != v && !edges.contains(&(u, v)) && !edges.contains(&(v, u)) {
            edges.push((u, v));
        }
    }
    Network { name, n, target: n / 2, edges }
}

/// Each node linked to one of the six before it, and links at random between nodes near each other.
pub fn sparse(name: &'static str, n: usize, m: usize, rng: &mut Rng) -> Network {
    let mut edges: Vec<_> = (1..n).map(|v| (rng.below(v.min(6)) + v - v.min(6), v)).collect();
    while edges.len() < m {
        let u = rng.below(n);
        let v = (u + 1 + rng.below(12)).min(n - 1);
        if u != v && !edges.contains(&(u, v)) {
            edges.push((u, v));
        }
    }
    Network { name, n, target: n - 1, edges }
}

/// Points in a square, from left to right: each linked to its nearest on the left, and then the
/// shortest other links.
pub fn geometric(name: &'static str, n: usize, m: usize, rng: &mut Rng) -> Network {
    let mut points: Vec<(usize, usize)> = (0..n).map(|_| (rng.below(10_000), rng.below(10_000))).collect();
    points.sort();
    let far = |u: usize, v: usize| {
        let (dx, dy) = (points[u].0.abs_diff(points[v].0), points[u].1.abs_diff(points[v].1));
        dx * dx + dy * dy
    };
    let mut edges: Vec<_> = (1..n).map(|v| ((0..v).min_by_key(|&u| far(u, v)).unwrap(), v)).collect();
    let mut others: Vec<_> = (0..n).flat_map(|u| (u + 1..n).map(move |v| (u, v))).collect();
    others.sort_by_key(|&(u, v)| far(u, v));
    for e in others {
        if edges.len() < m && !edges.contains(&e) {
            edges.push(e);
        }
    }
    Network { name, n, target: n - 1, edges }
}
