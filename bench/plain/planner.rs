// A planner without proofs, as a measure of speed: the same sheets, the same plans.
use std::fmt::Write as _;
use std::io::{Read, Write};

type Entry = (u32, u32);

trait Matroid {
    // The circuit that the element closes with the kept set, if any; else the element is kept.
    fn take(&mut self, element: usize, circuit: &mut Vec<usize>) -> bool;
    fn clear(&mut self);
}

// Routes: the kept ones are a forest, rooted anew where trees are joined.
struct Routes {
    ends: Vec<(usize, usize)>,
    parent: Vec<Option<(usize, usize)>>,
    size: Vec<usize>,
    root: Vec<usize>,
}

impl Routes {
    fn new(places: usize, ends: Vec<(usize, usize)>) -> Routes {
        Routes {
            ends,
            parent: vec![None; places],
            size: vec![1; places],
            root: (0..places).collect(),
        }
    }

    fn find(&mut self, mut place: usize) -> usize {
        while self.root[place] != place {
            self.root[place] = self.root[self.root[place]];
            place = self.root[place];
        }
        place
    }

    // Turns the path from the place to the root of its tree, so that the place is the root.
    fn reroot(&mut self, place: usize) {
        let mut at = place;
        let mut above = None;
        while let Some((next, route)) = self.parent[at] {
            self.parent[at] = above;
            above = Some((at, route));
            at = next;
        }
        self.parent[at] = above;
    }
}

impl Matroid for Routes {
    fn take(&mut self, element: usize, circuit: &mut Vec<usize>) -> bool {
        let (a, b) = self.ends[element];
        let (mut x, mut y) = (self.find(a), self.find(b));
        if x != y {
            let (mut from, mut to) = (a, b);
            if self.size[x] > self.size[y] {
                std::mem::swap(&mut x, &mut y);
                std::mem::swap(&mut from, &mut to);
            }
            self.reroot(from);
            self.parent[from] = Some((to, element));
            self.root[x] = y;
            self.size[y] += self.size[x];
            return true;
        }
        circuit.clear();
        circuit.push(element);
        let mut marked = vec![false; self.parent.len()];
        let mut at = a;
        marked[at] = true;
        while let Some((next, _)) = self.parent[at] {
            marked[next] = true;
            at = next;
        }
        let mut meet = b;
        while !marked[meet] {
            let (next, route) = self.parent[meet].unwrap();
            circuit.push(route);
            meet = next;
        }
        let mut at = a;
        while at != meet {
            let (next, route) = self.parent[at].unwrap();
            circuit.push(route);
            at = next;
        }
        false
    }

    fn clear(&mut self) {
        self.parent.fill(None);
        self.size.fill(1);
        for (place, root) in self.root.iter_mut().enumerate() {
            *root = place;
        }
    }
}

struct Lots {
    lot: Vec<usize>,
    cap: Vec<u32>,
    kept: Vec<Vec<usize>>,
}

impl Matroid for Lots {
    fn take(&mut self, element: usize, circuit: &mut Vec<usize>) -> bool {
        let lot = self.lot[element];
        if (self.kept[lot].len() as u64) < u64::from(self.cap[lot]) {
            self.kept[lot].push(element);
            return true;
        }
        circuit.clear();
        circuit.extend_from_slice(&self.kept[lot]);
        circuit.push(element);
        false
    }

    fn clear(&mut self) {
        self.kept.iter_mut().for_each(Vec::clear);
    }
}

// Words: a basis by its highest bits, each with the set of words that it is the sum of.
struct Words {
    word: Vec<u64>,
    basis: [Option<(u64, [u64; 4])>; 64],
}

impl Matroid for Words {
    fn take(&mut self, element: usize, circuit: &mut Vec<usize>) -> bool {
        let mut word = self.word[element];
        let mut of = [0u64; 4];
        of[element / 64] |= 1 << (element % 64);
        while word != 0 {
            let top = 63 - word.leading_zeros() as usize;
            match &self.basis[top] {
                Some((other, parts)) => {
                    word ^= other;
                    for (a, b) in of.iter_mut().zip(parts) {
                        *a ^= b;
                    }
                }
                None => {
                    self.basis[top] = Some((word, of));
                    return true;
                }
            }
        }
        circuit.clear();
        circuit.extend((0..256).filter(|i| of[i / 64] >> (i % 64) & 1 == 1));
        false
    }

    fn clear(&mut self) {
        self.basis = [None; 64];
    }
}

enum Walk {
    Settled(Vec<usize>),
    Open(usize, usize),
}

fn walk(matroid: &mut dyn Matroid, entries: &[Entry], order: &mut [usize], circuit: &mut Vec<usize>) -> Walk {
    matroid.clear();
    order.sort_unstable_by_key(|&i| (entries[i], i));
    let mut kept = Vec::new();
    for &e in order.iter() {
        if matroid.take(e, circuit) {
            kept.push(e);
        } else if circuit.iter().any(|&x| x != e && entries[x].1 > entries[e].0) {
            let f = *circuit.iter().max_by_key(|&&x| (entries[x].1, std::cmp::Reverse(x))).unwrap();
            let others = circuit.iter().copied().filter(|&x| x != f && entries[x].1 > entries[f].0);
            let g = others.min_by_key(|&x| (entries[x].0 != entries[x].1, x)).unwrap();
            return Walk::Open(f, g);
        }
    }
    kept.sort_unstable();
    Walk::Settled(kept)
}

fn main() {
    let mut text = String::new();
    std::io::stdin().read_to_string(&mut text).unwrap();
    let mut lines = text.lines().map(|l| l.split(' ').collect::<Vec<_>>());
    let head = lines.next().unwrap();
    let allowance: usize = head[1].parse().unwrap();
    let number = |f: &str| f.parse::<u32>().unwrap();
    let count = number(lines.next().unwrap()[0]) as usize;
    let places: Vec<Vec<&str>> = lines.by_ref().take(count).collect();
    let n = number(lines.next().unwrap()[0]) as usize;
    let mut entries: Vec<Entry> = Vec::with_capacity(n);
    let mut tails: Vec<Vec<&str>> = Vec::with_capacity(n);
    for l in lines.by_ref().take(n) {
        if l[0] == "k" {
            let price = number(l[1]);
            entries.push((price, price));
            tails.push(l[2..].to_vec());
        } else {
            entries.push((number(l[1]), number(l[2])));
            tails.push(l[3..].to_vec());
        }
    }
    let count = number(lines.next().unwrap()[0]) as usize;
    let mut record = vec![None; n];
    for l in lines.take(count) {
        record[number(l[0]) as usize] = Some(number(l[1]));
    }
    let mut matroid: Box<dyn Matroid> = match head[0] {
        "routes" => {
            let ends = tails.iter().map(|t| (number(t[0]) as usize, number(t[1]) as usize)).collect();
            Box::new(Routes::new(places.len(), ends))
        }
        "lots" => Box::new(Lots {
            lot: tails.iter().map(|t| number(t[0]) as usize).collect(),
            cap: places.iter().map(|p| number(p[1])).collect(),
            kept: vec![Vec::new(); places.len()],
        }),
        _ => Box::new(Words {
            word: tails.iter().map(|t| u64::from_str_radix(t[0], 2).unwrap()).collect(),
            basis: [None; 64],
        }),
    };
    let mut order: Vec<usize> = (0..n).collect();
    let mut circuit = Vec::new();
    let mut pending: Option<usize> = None;
    let mut ledger: Vec<(usize, u32)> = Vec::new();
    let mut out = String::new();
    let kept = loop {
        let (e, next) = match walk(&mut *matroid, &entries, &mut order, &mut circuit) {
            Walk::Settled(kept) => break Ok(kept),
            Walk::Open(f, g) => match pending {
                Some(e) if entries[e].0 != entries[e].1 => (e, None),
                _ => (f, Some(g).filter(|&g| entries[g].0 != entries[g].1)),
            },
        };
        if ledger.len() == allowance {
            break Err((12, e, 1));
        }
        let Some(price) = record[e] else { break Err((11, e, 0)) };
        if price <= entries[e].0 || price >= entries[e].1 {
            break Err((10, e, 2));
        }
        entries[e] = (price, price);
        ledger.push((e, price));
        pending = next;
    };
    match &kept {
        Ok(_) => out.push_str("finished\n"),
        Err((number, e, depth)) => writeln!(out, "stopped {number} {e} {depth}").unwrap(),
    }
    writeln!(out, "{}", ledger.len()).unwrap();
    for (e, p) in &ledger {
        writeln!(out, "{e} {p}").unwrap();
    }
    if let Ok(kept) = kept {
        writeln!(out, "{}", kept.len()).unwrap();
        let (mut lows, mut highs) = (0u64, 0u64);
        for e in kept {
            let (low, high) = entries[e];
            lows += u64::from(low);
            highs += u64::from(high);
            let name = match head[0] {
                "routes" => {
                    let at = |k: usize| places[number(tails[e][k]) as usize][0];
                    format!("{} {}", at(0), at(1))
                }
                "lots" => places[number(tails[e][0]) as usize][0].to_string(),
                _ => tails[e][0].to_string(),
            };
            writeln!(out, "{e} {low} {high} {name}").unwrap();
        }
        writeln!(out, "total {lows} {highs}").unwrap();
    }
    std::io::stdout().write_all(out.as_bytes()).unwrap();
}
