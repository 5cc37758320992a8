// The loop of `faces` in plain Rust: the same bits, the same probes, the same four looks.
use std::time::Instant;

const XUP: u8 = 0;

struct Lattice {
    side: usize,
    row: usize,
    words: Vec<u64>,
}

impl Lattice {
    #[inline]
    fn is_free(&self, x: usize, y: usize, z: usize) -> bool {
        let word = self.words[(z * self.side + y) * self.row + (x >> 6)];
        word & (1 << (x & 63)) == 0
    }

    #[inline]
    fn fold(&self, c: i64) -> usize {
        if 0 <= c && c < self.side as i64 {
            c as usize
        } else {
            c.rem_euclid(self.side as i64) as usize
        }
    }

    #[inline]
    fn next(&self, x: usize) -> usize {
        if x + 1 == self.side { 0 } else { x + 1 }
    }

    #[inline]
    fn previous(&self, x: usize) -> usize {
        if x == 0 { self.side - 1 } else { x - 1 }
    }

    #[inline]
    fn face_free(&self, p: [i64; 3], dir: u8) -> bool {
        let near = p.map(|c| self.fold(c));
        let far = near.map(|c| self.next(c));
        let (mut a, mut b) = (near, far);
        let axis = (dir >> 1) as usize;
        let plane = if dir & 1 == XUP {
            self.next(far[axis])
        } else {
            self.previous(near[axis])
        };
        a[axis] = plane;
        b[axis] = plane;
        self.is_free(a[0], a[1], a[2])
            & self.is_free(a[0], b[1], b[2])
            & self.is_free(b[0], a[1], b[2])
            & self.is_free(b[0], b[1], a[2])
    }

    fn cube(&self, p: [i64; 3]) -> [[usize; 3]; 8] {
        let near = p.map(|c| self.fold(c));
        let far = near.map(|c| self.next(c));
        let mut sites = [[0; 3]; 8];
        for (k, site) in sites.iter_mut().enumerate() {
            for axis in 0..3 {
                site[axis] = if k >> axis & 1 == 0 { near[axis] } else { far[axis] };
            }
        }
        sites
    }
}

fn draw(state: &mut u64, below: u64) -> u64 {
    *state ^= *state << 13;
    *state ^= *state >> 7;
    *state ^= *state << 17;
    *state % below
}

fn time(side: usize, monomers: usize, probes: usize, rounds: usize) {
    let row = side.div_ceil(64);
    let mut lattice = Lattice { side, row, words: vec![0; side * side * row] };
    let mut state = 88172645463325252;
    let mut places: Vec<[u16; 3]> = Vec::new();
    while places.len() < monomers {
        let p = [0; 3].map(|_: i32| draw(&mut state, side as u64) as u16);
        let sites = lattice.cube(p.map(i64::from));
        if sites.iter().all(|s| lattice.is_free(s[0], s[1], s[2])) {
            for [x, y, z] in sites {
                lattice.words[(z * side + y) * row + (x >> 6)] |= 1 << (x & 63);
            }
            places.push(p);
        }
    }
    let mut list: Vec<([u16; 3], u8)> = Vec::new();
    for _ in 0..probes {
        let monomer = draw(&mut state, monomers as u64) as usize;
        list.push((places[monomer], draw(&mut state, 6) as u8));
    }
    let mut best = u128::MAX;
    let mut free = 0u64;
    for _ in 0..rounds {
        let start = Instant::now();
        free = list
            .iter()
            .map(|(p, dir)| u64::from(lattice.face_free(p.map(i64::from), *dir)))
            .sum();
        best = best.min(start.elapsed().as_nanos());
    }
    println!("{monomers} in {side}^3: {free} free, {} ps a probe", best * 1000 / probes as u128);
}

fn main() {
    time(64, 16384, 1 << 18, 100);
    time(256, 262144, 1 << 18, 100);
}
