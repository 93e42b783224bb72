// The ordinary Rust search that the proved one is measured against: the same pass, order and budget, written as one would write it
// without proofs, on the same representation of a network. `compare.sh` beside it times both; the lines that both print are the same, and
// the nodes are their second numbers.
pub struct Network {
    pub top: u64,
    pub constant: u64,
    pub sizes: Vec<usize>,
    pub scopes: Vec<Vec<usize>>,
    pub starts: Vec<usize>,
}

pub struct Outcome {
    pub best: u64,
    pub plan: Vec<usize>,
    pub nodes: u64,
    pub over: bool,
}

struct Search<'a> {
    net: &'a Network,
    held: &'a [u64],
    work: Vec<u64>,
    firsts: Vec<usize>,
    // the live values of each variable: from .0 on, below .1
    live: Vec<(usize, usize)>,
    out: Outcome,
    budget: u64,
}

pub fn search(net: &Network, held: &[u64], budget: u64) -> Outcome {
    let mut firsts = Vec::new();
    let mut at = 0;
    for &d in &net.sizes {
        firsts.push(at);
        at += d;
    }
    let mut s = Search {
        net,
        held,
        work: held.to_vec(),
        firsts,
        live: net.sizes.iter().map(|&d| (0, d)).collect(),
        out: Outcome { best: net.top, plan: Vec::new(), nodes: 0, over: false },
        budget,
    };
    s.visit(0);
    s.out
}

impl<'a> Search<'a> {
    fn visit(&mut self, depth: usize) {
        if self.out.nodes >= self.budget {
            self.out.over = true;
            return;
        }
        self.out.nodes += 1;
        let constant = self.pass();
        if constant >= self.out.best {
            return;
        }
        if depth == self.net.sizes.len() {
            self.out.best = constant;
            self.out.plan = self.live.iter().map(|l| l.0).collect();
            return;
        }
        for a in 0..self.net.sizes[depth] {
            self.live[depth] = (a, a + 1);
            self.visit(depth + 1);
            if self.out.over {
                return;
            }
        }
        self.live[depth] = (0, self.net.sizes[depth]);
    }

    fn pass(&mut self) -> u64 {
        let top = self.net.top;
        self.work.copy_from_slice(self.held);
        for f in 0..self.net.scopes.len() {
            let scope = &self.net.scopes[f];
            let mut dims = [(1, 0, 1); 3];
            for (j, &v) in scope.iter().enumerate() {
                dims[3 - scope.len() + j] = (self.net.sizes[v], self.live[v].0, self.live[v].1);
            }
            for (j, &v) in scope.iter().enumerate() {
                let place = 3 - scope.len() + j;
                for a in self.live[v].0..self.live[v].1 {
                    let mut inner = dims;
                    inner[place] = (dims[place].0, a, a + 1);
                    let least = self.least(f, &inner);
                    if least > 0 {
                        self.take(f, &inner, least);
                        let u = &mut self.work[self.firsts[v] + a];
                        *u = top.min(*u + least);
                    }
                }
            }
        }
        let mut constant = self.net.constant;
        for v in 0..self.net.sizes.len() {
            let (from, to) = self.live[v];
            let part = &mut self.work[self.firsts[v] + from..self.firsts[v] + to];
            let least = part.iter().copied().min().unwrap_or(top).min(top);
            if least > 0 {
                for u in part.iter_mut() {
                    if *u < top {
                        *u -= least;
                    }
                }
                constant = top.min(constant + least);
            }
        }
        constant
    }

    fn least(&self, f: usize, dims: &[(usize, usize, usize); 3]) -> u64 {
        let (d1, d2) = (dims[1].0, dims[2].0);
        let mut least = self.net.top;
        for x in dims[0].1..dims[0].2 {
            for y in dims[1].1..dims[1].2 {
                let row = self.net.starts[f] + (x * d1 + y) * d2;
                for &c in &self.work[row + dims[2].1..row + dims[2].2] {
                    least = least.min(c);
                }
            }
        }
        least
    }

    fn take(&mut self, f: usize, dims: &[(usize, usize, usize); 3], amount: u64) {
        let top = self.net.top;
        let (d1, d2) = (dims[1].0, dims[2].0);
        for x in dims[0].1..dims[0].2 {
            for y in dims[1].1..dims[1].2 {
                let row = self.net.starts[f] + (x * d1 + y) * d2;
                for c in &mut self.work[row + dims[2].1..row + dims[2].2] {
                    if *c < top {
                        *c -= amount;
                    }
                }
            }
        }
    }
}

// The networks of crates/search_speed, by the same recurrence.
struct Shape {
    vars: usize,
    size: usize,
    binary: usize,
    ternary: usize,
    // how far the next variable of a scope is from the last, at most
    reach: u64,
}

const MIDDLING: Shape = Shape { vars: 12, size: 4, binary: 30, ternary: 10, reach: 5 };
const WIDE: Shape = Shape { vars: 6, size: 16, binary: 15, ternary: 0, reach: 2 };
const NARROW: Shape = Shape { vars: 20, size: 2, binary: 100, ternary: 30, reach: 5 };

fn next(seed: u64) -> u64 {
    (seed % 2_147_483_648 * 1_103_515_245 + 12_345) % 2_147_483_648
}

fn draw(seed: u64, below: u64) -> u64 {
    seed / 65_536 % below
}

fn network(shape: &Shape, mut seed: u64) -> (Network, Vec<u64>) {
    let mut scopes = Vec::new();
    let mut starts = Vec::new();
    let mut entries = shape.vars * shape.size;
    for f in 0..shape.binary + shape.ternary {
        let arity = if f < shape.binary { 2 } else { 3 };
        let mut row = [0; 3];
        let mut last = 0;
        // three draws for every function, whatever its arity
        for j in 0..3 {
            seed = next(seed);
            last = match j {
                0 => draw(seed, shape.vars as u64) as usize,
                _ => (last + 1 + draw(seed, shape.reach) as usize) % shape.vars,
            };
            row[j] = last;
        }
        scopes.push(row[..arity].to_vec());
        starts.push(entries);
        entries += shape.size.pow(arity as u32);
    }
    let mut held = Vec::new();
    for _ in 0..entries {
        seed = next(seed);
        held.push(draw(seed, 50));
    }
    (Network { top: 1_000_000_000, constant: 0, sizes: vec![shape.size; shape.vars], scopes, starts }, held)
}

fn main() {
    for shape in [MIDDLING, WIDE, NARROW] {
        for seed in 1..=5 {
            let (net, held) = network(&shape, seed);
            let found = search(&net, &held, 1_000_000);
            println!("{} {}", found.best, found.nodes);
        }
    }
}
