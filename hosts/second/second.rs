// An independent second solver, written from document 01 and the requests that landed and never from the proved crates: it reads a
// network's text its own way, tries every plan in lexicographic order and keeps the first strictly cheapest below k. It has no pass, no
// bound and no tree, so it shares no idea with the search that a mistake could hide in. Ordinary Rust, the standard library only:
// `rustc -O second.rs`.
//
//   second                  a network's text on standard input: `cost c` and `plan …`, or `none k`, or `refused n at p`
//   second frames           frames of `crates/trials` on standard input, a line for each (see `answer`)
//   second frame J          the J-th of those frames as it stands, to look at one that differed
//   second make SEED COUNT  COUNT generated networks, each in a `search` and a `price` frame, drawn from the seeds SEED, SEED + 1, …
use std::io::{self, BufRead, BufReader, BufWriter, Read, Write};

// ---- The paper's limits, and those of a frame

const TEXT: usize = 65_536;
const NAME: usize = 64;
const DIGITS: usize = 13;
const VARIABLES: u128 = 64;
const SIZE: u128 = 16;
const FUNCTIONS: u128 = 256;
const TOP: u128 = 1_000_000_000_000;
const ENTRIES: usize = 4_096;
const BASE: u128 = 1_000_000_000_000;
const LIMIT: u128 = 1_000;

const FRAME_TEXT: u64 = 70_000;
const FRAME_RECORD: u64 = 400_000;

// As many plans as are tried for a frame; a network alone, on standard input, takes as long as it takes.
const MOST_PLANS: u64 = 1_000_000;

// ---- Reading

// a number of the paper's table, and a place
type Refusal = (u32, usize);

struct Function {
    scope: Vec<usize>,
    // the last scope variable changing fastest
    costs: Vec<u128>,
}

struct Network {
    k: u128,
    constant: u128,
    sizes: Vec<usize>,
    unary: Vec<Vec<u128>>,
    functions: Vec<Function>,
}

struct Text<'a> {
    bytes: &'a [u8],
    at: usize,
}

fn separates(b: u8) -> bool {
    matches!(b, b' ' | b'\t' | b'\n' | b'\r')
}

impl<'a> Text<'a> {
    // the next token and its offset; at the end an empty one, whose offset is the text's length
    fn token(&mut self) -> (&'a [u8], usize) {
        while self.at < self.bytes.len() && separates(self.bytes[self.at]) {
            self.at += 1;
        }
        let from = self.at;
        while self.at < self.bytes.len() && !separates(self.bytes[self.at]) {
            self.at += 1;
        }
        (&self.bytes[from..self.at], from)
    }

    fn peek(&self) -> &'a [u8] {
        Text { bytes: self.bytes, at: self.at }.token().0
    }

    fn number(&mut self) -> Result<(u128, usize), Refusal> {
        let (token, at) = self.token();
        if token.is_empty() || token.len() > DIGITS || !token.iter().all(u8::is_ascii_digit) {
            return Err((2, at));
        }
        Ok((token.iter().fold(0, |v, b| v * 10 + (b - b'0') as u128), at))
    }

    fn ranged(&mut self, least: u128, most: u128) -> Result<(u128, usize), Refusal> {
        let (v, at) = self.number()?;
        if v < least || v > most { Err((3, at)) } else { Ok((v, at)) }
    }

    // which of the words comes next: exact bytes
    fn word(&mut self, words: &[&'static str]) -> Result<&'static str, Refusal> {
        let (token, at) = self.token();
        words.iter().find(|w| w.as_bytes() == token).copied().ok_or((2, at))
    }
}

fn read(bytes: &[u8]) -> Result<Network, Refusal> {
    if bytes.len() > TEXT {
        return Err((1, 0));
    }
    let mut text = Text { bytes, at: 0 };
    let (name, at) = text.token();
    // the bytes of a name are 33 to 126 (request M-101)
    if name.is_empty() || name.len() > NAME || name.iter().any(|b| !(33..=126).contains(b)) {
        return Err((2, at));
    }
    let n = text.ranged(0, VARIABLES)?.0 as usize;
    let (greatest, at) = text.ranged(0, SIZE)?;
    if n == 0 && greatest != 0 {
        return Err((4, at));
    }
    let count = text.ranged(0, FUNCTIONS)?.0;
    let k = text.ranged(1, TOP)?.0;

    let mut sizes: Vec<usize> = Vec::new();
    let mut entries = 0;
    let mut widest = 0;
    for i in 0..n {
        let (d, at) = text.ranged(1, SIZE)?;
        sizes.push(d as usize);
        entries += d as usize;
        widest = d.max(widest);
        let last = i + 1 == n;
        if last && entries > ENTRIES {
            return Err((3, at));
        }
        if last && widest != greatest {
            return Err((4, at));
        }
    }

    let unary = sizes.iter().map(|&d| vec![0; d]).collect();
    let mut net = Network { k, constant: 0, sizes, unary, functions: Vec::new() };
    for _ in 0..count {
        let arity = text.ranged(0, 3)?.0 as usize;
        let mut scope: Vec<usize> = Vec::new();
        let mut tuples = 1;
        for j in 0..arity {
            let (v, at) = text.number()?;
            if v >= n as u128 || scope.contains(&(v as usize)) {
                return Err((4, at));
            }
            scope.push(v as usize);
            tuples *= net.sizes[v as usize];
            // only these have a stretch of their own
            if j + 1 == arity && arity >= 2 {
                entries += tuples;
                if entries > ENTRIES {
                    return Err((3, at));
                }
            }
        }
        let dims: Vec<usize> = scope.iter().map(|&v| net.sizes[v]).collect();
        let costs = function_costs(&mut text, k, &dims)?;
        match arity {
            0 => net.constant = k.min(net.constant + costs[0]),
            1 => {
                for (u, c) in net.unary[scope[0]].iter_mut().zip(costs) {
                    *u = k.min(*u + c);
                }
            }
            _ => net.functions.push(Function { scope, costs }),
        }
    }
    let (more, at) = text.token();
    if more.is_empty() { Ok(net) } else { Err((6, at)) }
}

// What follows a scope: a default and listed tuples, or a soft sum. `dims` are the sizes of the scope's variables, none for arity 0.
fn function_costs(text: &mut Text, k: u128, dims: &[usize]) -> Result<Vec<u128>, Refusal> {
    let tuples: usize = dims.iter().product();
    if !dims.is_empty() && text.peek() == b"-1" {
        text.token();
        text.word(&["wsum"])?;
        let mode = text.word(&["hard", "lin", "quad"])?;
        let base = text.ranged(0, BASE)?.0;
        let compare = text.word(&["==", "!=", "<", "<=", ">", ">="])?;
        let limit = text.ranged(0, LIMIT)?.0 as i128;
        return Ok((0..tuples).map(|e| soft(k, mode, base, gap(compare, limit, values(dims, e).iter().sum()))).collect());
    }
    let default = k.min(text.number()?.0);
    // the product over no variables is 1, yet arity 0 lists nothing
    let most = if dims.is_empty() { 0 } else { tuples };
    let listed = text.ranged(0, most as u128)?.0;
    let mut costs = vec![None; tuples];
    for _ in 0..listed {
        let mut e = 0;
        let mut last = 0;
        for &d in dims {
            let (a, at) = text.number()?;
            if a >= d as u128 {
                return Err((4, at));
            }
            e = e * d + a as usize;
            last = at;
        }
        // judged at the last value, before the cost is looked at
        if costs[e].is_some() {
            return Err((5, last));
        }
        costs[e] = Some(k.min(text.number()?.0));
    }
    Ok(costs.into_iter().map(|c| c.unwrap_or(default)).collect())
}

// the values of the tuple at an entry, in scope order
fn values(dims: &[usize], entry: usize) -> Vec<usize> {
    let mut rest = entry;
    let mut found = vec![0; dims.len()];
    for (a, d) in found.iter_mut().zip(dims).rev() {
        *a = rest % d;
        rest /= d;
    }
    found
}

// How far a sum is from what is asked of it, by the paper's list, and for `<` by request M-103: with K 0 no sum is near enough.
fn gap(compare: &str, limit: i128, sum: usize) -> u128 {
    let over = sum as i128 - limit;
    let gap = match compare {
        "==" => over.abs(),
        "!=" => (over == 0) as i128,
        "<" => over + 1,
        "<=" => over,
        ">" => 1 - over,
        _ => -over,
    };
    gap.max(0) as u128
}

fn soft(k: u128, mode: &str, base: u128, gap: u128) -> u128 {
    k.min(match mode {
        "lin" => base * gap,
        "quad" => base * gap * gap,
        _ => if gap > 0 { k } else { 0 },
    })
}

// ---- Solving

// Capping once at the end is capping at every ⊕, since no cost is below 0.
fn price(net: &Network, plan: &[usize]) -> u128 {
    let mut sum = net.constant;
    for (costs, &a) in net.unary.iter().zip(plan) {
        sum += costs[a];
    }
    for f in &net.functions {
        sum += f.costs[f.scope.iter().fold(0, |e, &v| e * net.sizes[v] + plan[v])];
    }
    sum.min(net.k)
}

// The first part at which the sum reaches k (request M-108). It reaches k where nothing of k is left to pay.
fn broken(net: &Network, plan: &[usize]) -> String {
    let mut left = net.k;
    let mut uses_up = |cost: u128| {
        left -= left.min(cost);
        left == 0
    };
    if uses_up(net.constant) {
        return "constant".to_string();
    }
    for (i, &a) in plan.iter().enumerate() {
        if uses_up(net.unary[i][a]) {
            return format!("unary {i}");
        }
    }
    for (number, f) in net.functions.iter().enumerate() {
        if uses_up(f.costs[f.scope.iter().fold(0, |e, &v| e * net.sizes[v] + plan[v])]) {
            return format!("function {number}");
        }
    }
    "nowhere".to_string()
}

fn cheapest(net: &Network) -> Option<(u128, Vec<usize>)> {
    let mut plan = vec![0; net.sizes.len()];
    let mut best = None;
    let mut bound = net.k;
    loop {
        let c = price(net, &plan);
        if c < bound {
            bound = c;
            best = Some((c, plan.clone()));
        }
        // the next plan: the last variable that has a further value takes it, those after it begin anew
        let Some(v) = (0..plan.len()).rev().find(|&v| plan[v] + 1 < net.sizes[v]) else {
            return best;
        };
        plan[v] += 1;
        plan[v + 1..].fill(0);
    }
}

// how many there are, or the most that can be told: 16^64 is no number here
fn plans(sizes: &[usize]) -> u64 {
    sizes.iter().fold(1, |all, &d| all.saturating_mul(d as u64))
}

fn verdict(net: &Network, between: &str) -> String {
    match cheapest(net) {
        None => format!("none {}", net.k),
        Some((c, plan)) => format!("cost {c}{between}plan{}", spaced(&plan)),
    }
}

// each with a space before it
fn spaced<T: ToString>(items: &[T]) -> String {
    items.iter().map(|i| " ".to_string() + &i.to_string()).collect()
}

// ---- Frames

struct Frame {
    call: String,
    // the header's words after the call
    numbers: Vec<u64>,
    text: Vec<u8>,
    whole: Vec<u8>,
}

// The next frame: a header line, the text, a `check` frame's record, one LF. None if there is no such thing.
fn frame(input: &mut impl BufRead) -> Option<Frame> {
    let mut head = String::new();
    input.read_line(&mut head).ok()?;
    let mut words = head.strip_suffix('\n')?.split(' ');
    let call = words.next()?.to_string();
    if !["read", "price", "shift", "pass", "search", "check", "show", "lend"].contains(&call.as_str()) {
        return None;
    }
    let digits = |w: &str| w.bytes().all(|b| b.is_ascii_digit());
    let numbers: Vec<u64> = words.map(|w| w.parse().ok().filter(|_| digits(w))).collect::<Option<_>>()?;
    let size = *numbers.first()?;
    let more = if call == "check" { *numbers.get(1)? } else { 0 };
    if size > FRAME_TEXT || more > FRAME_RECORD {
        return None;
    }
    let mut payload = vec![0; (size + more + 1) as usize];
    input.read_exact(&mut payload).ok()?;
    if payload.last() != Some(&b'\n') {
        return None;
    }
    let whole = [head.as_bytes(), &payload].concat();
    payload.truncate(size as usize);
    Some(Frame { call, numbers, text: payload, whole })
}

// What this solver says to a frame: to `search` its verdict, whatever budget and room the frame gives; to `read` and `price` the refusal,
// or the whole line that the trials have for what is done; `-` to every other call, and where there are too many plans to try.
fn answer(frame: &Frame) -> String {
    let call = frame.call.as_str();
    if !["read", "price", "search"].contains(&call) {
        return "-".to_string();
    }
    match read(&frame.text) {
        Err((n, p)) => format!("refused {n} at {p}"),
        Ok(net) if call == "read" => reading(&net, frame.numbers.get(1).map_or(0, |&l| l as usize)),
        Ok(net) if call == "price" => priced(&net, &frame.numbers[1..]),
        Ok(net) if plans(&net.sizes) > MOST_PLANS => "-".to_string(),
        Ok(net) => verdict(&net, " "),
    }
}

// A plan's count and then its choices: those that are not given are 0, those past the count are nothing.
fn priced(net: &Network, numbers: &[u64]) -> String {
    let n = net.sizes.len();
    if numbers.first() != Some(&(n as u64)) {
        return "refused 9 at 0".to_string();
    }
    let plan: Vec<usize> = (1..=n).map(|at| numbers.get(at).map_or(0, |&a| a as usize)).collect();
    match (0..n).find(|&i| plan[i] >= net.sizes[i]) {
        Some(i) => format!("refused 9 at {i}"),
        None => format!("done {} {}", price(net, &plan), broken(net, &plan)),
    }
}

// A read into a table of `room` entries, 77 throughout: 7 comes last, and what is past E is left alone.
fn reading(net: &Network, room: usize) -> String {
    let parts = net.unary.iter().chain(net.functions.iter().map(|f| &f.costs));
    let mut table: Vec<u128> = parts.flatten().copied().collect();
    if room < table.len() {
        return "refused 7 at 0".to_string();
    }
    table.resize(room, 77);
    let mut line = format!("done {} {} {}{}", net.k, net.constant, net.sizes.len(), spaced(&net.sizes));
    line += &format!(" {}", net.functions.len());
    for f in &net.functions {
        line += &format!(" {}{}", f.scope.len(), spaced(&f.scope));
    }
    line += " table";
    for run in table.chunk_by(|a, b| a == b) {
        line += &format!(" {}*{}", run[0], run.len());
    }
    line
}

// ---- Generated networks

// splitmix64, since neighbouring seeds must give unlike networks
struct Dice(u64);

impl Dice {
    fn roll(&mut self, below: u64) -> u64 {
        self.0 = self.0.wrapping_add(0x9e37_79b9_7f4a_7c15);
        let a = (self.0 ^ self.0 >> 30).wrapping_mul(0xbf58_476d_1ce4_e5b9);
        let b = (a ^ a >> 27).wrapping_mul(0x94d0_49bb_1331_11eb);
        (b ^ b >> 31) % below
    }

    fn pick<T: Copy>(&mut self, from: &[T]) -> T {
        from[self.roll(from.len() as u64) as usize]
    }
}

// The tokens of a network that the paper allows, but for E. Costs are drawn from few numbers, so that plans tie, or from up to twice
// a k that is often small, so that sums reach it; a domain is often of size 1.
fn network(dice: &mut Dice, name: String) -> Vec<String> {
    let widest = dice.pick(&[2, 4, 16]);
    let mut sizes: Vec<usize> = Vec::new();
    for _ in 0..dice.roll(15) {
        sizes.push(1 + dice.roll(widest) as usize);
        if plans(&sizes) > 20_000 {
            sizes.pop();
        }
    }
    let n = sizes.len();
    let k = dice.pick(&[1, 2, 5, 10, 30, 100, 1_000, TOP as u64]);
    let dearest = dice.pick(&[2, 5, 20, 2 * k]);
    let count = dice.roll(13);

    let mut tokens = vec![name];
    let mut add = |more: &[u64]| tokens.extend(more.iter().map(|t| t.to_string()));
    add(&[n as u64, sizes.iter().copied().max().unwrap_or(0) as u64, count, k]);
    add(&sizes.iter().map(|&d| d as u64).collect::<Vec<_>>());
    for _ in 0..count {
        let arity = (dice.roll(4) as usize).min(n);
        let mut scope: Vec<usize> = Vec::new();
        while scope.len() < arity {
            let v = dice.roll(n as u64) as usize;
            if !scope.contains(&v) {
                scope.push(v);
            }
        }
        tokens.push(arity.to_string());
        tokens.extend(scope.iter().map(|v| v.to_string()));
        if arity > 0 && dice.roll(4) == 0 {
            let base = dice.roll(dearest + 1).min(BASE as u64);
            let limit = [dice.roll(4), dice.roll(12), LIMIT as u64 - dice.roll(2)][dice.pick(&[0, 0, 1, 1, 1, 2])];
            tokens.extend(["-1", "wsum", dice.pick(&["hard", "lin", "quad"])].map(String::from));
            tokens.extend([base.to_string(), dice.pick(&["==", "!=", "<", "<=", ">", ">="]).to_string(), limit.to_string()]);
            continue;
        }
        let dims: Vec<usize> = scope.iter().map(|&v| sizes[v]).collect();
        let mut entries: Vec<usize> = (0..dims.iter().product()).collect();
        let listed = if arity == 0 { 0 } else { dice.roll(entries.len().min(40) as u64 + 1) };
        let default = if dice.roll(3) == 0 { dice.roll(dearest + 1) } else { 0 };
        tokens.extend([default, listed].map(|t| t.to_string()));
        for _ in 0..listed {
            let e = entries.swap_remove(dice.roll(entries.len() as u64) as usize);
            tokens.extend(values(&dims, e).iter().map(|a| a.to_string()));
            tokens.push(dice.roll(dearest + 1).to_string());
        }
    }
    tokens
}

// One token damaged: the header and the sizes more often than their share, for they are few among the tokens of a text.
fn damage(dice: &mut Dice, tokens: &mut Vec<String>) {
    let among = dice.pick(&[tokens.len(), tokens.len(), tokens.len().min(9)]);
    let at = dice.roll(among as u64) as usize;
    let old = tokens[at].clone();
    let number = dice.pick(&[0, 1, 2, 3, 4, 15, 16, 17, 63, 64, 65, 256, 257, 1_000, 1_001, TOP, TOP + 1, 9_999_999_999_999]);
    let word = dice.pick(&[
        "x", "-1", "-01", "wsum", "WSUM", "hard", "lin", "quad", "==", "=", "<", ">=", "1.0", "+1", "\u{b}", "\u{7f}", "\u{e9}", "!~",
    ]);
    match dice.roll(8) {
        0 => drop(tokens.remove(at)),
        1 => tokens.insert(at, old),
        2 => tokens[at] = format!("0{old}"),
        3 => tokens[at] = format!("{old}0"),
        4 => tokens[at] = "0".repeat(13 + dice.roll(2) as usize),
        5 => tokens[at] = "n".repeat(NAME + dice.roll(2) as usize),
        6 => tokens[at] = word.to_string(),
        _ => tokens[at] = number.to_string(),
    }
}

fn made(seed: u64) -> String {
    let mut dice = Dice(seed);
    let mut tokens = network(&mut dice, format!("made{seed}"));
    if dice.roll(5) == 0 {
        damage(&mut dice, &mut tokens);
    }
    // every fifth text has all kinds of separators, and one after the last token
    let text = if dice.roll(5) > 0 {
        tokens.join(" ")
    } else {
        tokens.iter().map(|t| t.clone() + dice.pick(&[" ", "  ", "\t", "\n", "\r\n"])).collect()
    };
    // drawn last, so that a seed's network does not hang on it
    let sizes = read(text.as_bytes()).map_or(Vec::new(), |net| net.sizes);
    let plan: Vec<u64> = sizes.iter().map(|&d| dice.roll(d as u64)).collect();
    // the budget is above any tree of so few plans
    let long = text.len();
    format!("search {long} 1000000 0 0\n{text}\nprice {long} {}{}\n{text}\n", plan.len(), spaced(&plan))
}

// ---- The program

fn frames(input: &mut impl BufRead, out: &mut impl Write) -> io::Result<()> {
    let mut lent = false;
    while !input.fill_buf()?.is_empty() {
        let Some(frame) = frame(input) else {
            return writeln!(out, "bad frame");
        };
        // after a `lend` the network is not the text's
        let line = if lent { "-".to_string() } else { answer(&frame) };
        writeln!(out, "{line}")?;
        lent = frame.call == "lend";
    }
    Ok(())
}

fn main() -> io::Result<()> {
    let args: Vec<String> = std::env::args().skip(1).collect();
    let count = |word: &str| word.parse::<u64>().expect("a count or a seed");
    let mut input = BufReader::new(io::stdin());
    let mut out = BufWriter::new(io::stdout());
    match args.iter().map(String::as_str).collect::<Vec<_>>()[..] {
        [] => {
            let mut text = Vec::new();
            input.read_to_end(&mut text)?;
            match read(&text) {
                Err((n, p)) => writeln!(out, "refused {n} at {p}")?,
                Ok(net) => writeln!(out, "{}", verdict(&net, "\n"))?,
            }
        }
        ["frames"] => frames(&mut input, &mut out)?,
        ["frame", which] => {
            let found = (0..count(which)).map(|_| frame(&mut input)).last().flatten();
            out.write_all(&found.expect("fewer frames").whole)?;
        }
        ["make", seed, many] => {
            for j in 0..count(many) {
                out.write_all(made(count(seed).wrapping_add(j)).as_bytes())?;
            }
        }
        _ => panic!("give nothing, `frames`, `frame J` or `make SEED COUNT`"),
    }
    out.flush()
}
