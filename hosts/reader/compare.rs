// An ordinary reader of wcsp text, written from document 01 and the requests that landed, beside the proved one: limits, texts that meet
// each refusal, and many mutated texts are read by both and compared; then both are timed on texts of 65,536 bytes. `compare.sh` builds
// and runs it: the outcomes come from the program `trials`, the times from a call of the library.
use std::io::{BufRead, BufReader, Write};
use std::process::{Child, ChildStdin, ChildStdout, Command, Stdio};
use std::sync::{Mutex, OnceLock};
use std::time::Instant;

extern "C" {
    fn read_text(text: *const u8, text_len: usize, table: *mut u64, table_len: usize) -> u64;
}

#[derive(Debug, PartialEq, Clone, Default)]
struct Outcome {
    number: u64,
    place: u64,
    top: u64,
    constant: u64,
    sizes: Vec<u64>,
    // arity and variables of each function; where its stretch begins shows in the table
    rows: Vec<Vec<u64>>,
    table: Vec<u64>,
}

struct Refusal(u64, usize);
type Res<T> = Result<T, Refusal>;

struct Reader<'a> {
    text: &'a [u8],
    at: usize,
}

fn white(b: u8) -> bool {
    b == b' ' || b == b'\t' || b == b'\n' || b == b'\r'
}

impl<'a> Reader<'a> {
    #[inline]
    fn token(&mut self) -> (usize, &'a [u8]) {
        while self.at < self.text.len() && white(self.text[self.at]) {
            self.at += 1;
        }
        let start = self.at;
        while self.at < self.text.len() && !white(self.text[self.at]) {
            self.at += 1;
        }
        (start, &self.text[start..self.at])
    }
    #[inline]
    fn any(&mut self) -> Res<(u64, usize)> {
        let (p, w) = self.token();
        if w.is_empty() || w.len() > 13 {
            return Err(Refusal(2, p));
        }
        let mut v = 0u64;
        for &b in w {
            if !b.is_ascii_digit() {
                return Err(Refusal(2, p));
            }
            v = v * 10 + (b - b'0') as u64;
        }
        Ok((v, p))
    }
    #[inline]
    fn number(&mut self, lo: u64, hi: u64) -> Res<(u64, usize)> {
        let (v, p) = self.any()?;
        if v < lo || v > hi {
            return Err(Refusal(3, p));
        }
        Ok((v, p))
    }
    fn word(&mut self, words: &[&[u8]]) -> Res<usize> {
        let (p, w) = self.token();
        words.iter().position(|x| *x == w).ok_or(Refusal(2, p))
    }
}

const UNLISTED: u64 = u64::MAX;

fn costs(r: &mut Reader, k: u64, ds: &[u64], cells: &mut [u64]) -> Res<()> {
    let many: u64 = ds.iter().product();
    if !ds.is_empty() {
        let save = r.at;
        let (_, w) = r.token();
        if w == b"-1" {
            r.word(&[b"wsum"])?;
            let mode = r.word(&[b"hard", b"lin", b"quad"])?;
            let base = r.number(0, 1_000_000_000_000)?.0 as u128;
            let cmp = r.word(&[b"==", b"!=", b"<", b"<=", b">", b">="])?;
            let limit = r.number(0, 1000)?.0 as i64;
            for e in 0..many {
                let (mut rest, mut sum) = (e, 0i64);
                for d in ds.iter().rev() {
                    sum += (rest % d) as i64;
                    rest /= d;
                }
                let gap = match cmp {
                    0 => (limit - sum).abs(),
                    1 => (sum == limit) as i64,
                    2 => (sum - limit + 1).max(0),
                    3 => (sum - limit).max(0),
                    4 => (limit - sum + 1).max(0),
                    _ => (limit - sum).max(0),
                } as u128;
                let cost = match mode {
                    0 => if gap > 0 { k as u128 } else { 0 },
                    1 => base * gap,
                    _ => base * gap * gap,
                };
                cells[e as usize] = cost.min(k as u128) as u64;
            }
            return Ok(());
        }
        r.at = save;
    }
    let default = r.any()?.0.min(k);
    let count = r.number(0, if ds.is_empty() { 0 } else { many })?.0;
    cells.fill(UNLISTED);
    for _ in 0..count {
        let mut e = 0u64;
        for (j, &d) in ds.iter().enumerate() {
            let (a, p) = r.any()?;
            if a >= d {
                return Err(Refusal(4, p));
            }
            e = e * d + a;
            if j + 1 == ds.len() && cells[e as usize] != UNLISTED {
                return Err(Refusal(5, p));
            }
        }
        cells[e as usize] = r.any()?.0.min(k);
    }
    for c in cells.iter_mut() {
        if *c == UNLISTED {
            *c = default;
        }
    }
    Ok(())
}

fn inner(text: &[u8], room: usize) -> Res<Outcome> {
    if text.len() > 65_536 {
        return Err(Refusal(1, 0));
    }
    let mut r = Reader { text, at: 0 };
    let (p, w) = r.token();
    // the bytes of a name are 33 to 126 (request M-101)
    if w.is_empty() || w.len() > 64 || !w.iter().all(u8::is_ascii_graphic) {
        return Err(Refusal(2, p));
    }
    let n = r.number(0, 64)?.0 as usize;
    let (big, p) = r.number(0, 16)?;
    if n == 0 && big != 0 {
        return Err(Refusal(4, p));
    }
    let f = r.number(0, 256)?.0;
    let k = r.number(1, 1_000_000_000_000)?.0;
    let mut sizes = Vec::with_capacity(n);
    for i in 0..n {
        let (d, p) = r.number(1, 16)?;
        sizes.push(d);
        if i + 1 == n && *sizes.iter().max().unwrap() != big {
            return Err(Refusal(4, p));
        }
    }
    let mut table = Vec::with_capacity(4096);
    table.resize(sizes.iter().sum::<u64>() as usize, 0);
    let mut rows = Vec::new();
    let mut constant = 0u64;
    for _ in 0..f {
        let arity = r.number(0, 3)?.0 as usize;
        let mut xs = [0u64; 3];
        let mut ds = [0u64; 3];
        for j in 0..arity {
            let (x, p) = r.any()?;
            if x >= n as u64 || xs[..j].contains(&x) {
                return Err(Refusal(4, p));
            }
            xs[j] = x;
            ds[j] = sizes[x as usize];
            if j + 1 == arity && arity >= 2 && table.len() as u64 + ds[..arity].iter().product::<u64>() > 4096 {
                return Err(Refusal(3, p));
            }
        }
        let ds = &ds[..arity];
        let many = ds.iter().product::<u64>() as usize;
        match arity {
            0 => {
                let mut cell = [0u64; 1];
                costs(&mut r, k, ds, &mut cell)?;
                constant = (constant + cell[0]).min(k);
            }
            1 => {
                let mut cells = [0u64; 16];
                costs(&mut r, k, ds, &mut cells[..many])?;
                let start: u64 = sizes[..xs[0] as usize].iter().sum();
                for a in 0..many {
                    let t = &mut table[start as usize + a];
                    *t = (*t + cells[a]).min(k);
                }
            }
            _ => {
                let start = table.len();
                table.resize(start + many, 0);
                costs(&mut r, k, ds, &mut table[start..])?;
                rows.push([&[arity as u64][..], &xs[..arity as usize]].concat());
            }
        }
    }
    let (p, w) = r.token();
    if !w.is_empty() {
        return Err(Refusal(6, p));
    }
    if room < table.len() {
        return Err(Refusal(7, 0));
    }
    Ok(Outcome { number: 0, place: 0, top: k, constant, sizes, rows, table })
}

fn ordinary(text: &[u8], room: usize) -> Outcome {
    match inner(text, room) {
        Ok(mut o) => {
            o.table.resize(room, 77);
            o
        }
        Err(Refusal(number, place)) => Outcome { number, place: place as u64, table: vec![0; room], ..Default::default() },
    }
}

struct Trials {
    _program: Child,
    input: ChildStdin,
    output: BufReader<ChildStdout>,
}

static TRIALS: OnceLock<Mutex<Trials>> = OnceLock::new();

fn trials() -> Mutex<Trials> {
    let name = std::env::args().nth(1).expect("the program trials is to be named");
    let mut program = Command::new(name).stdin(Stdio::piped()).stdout(Stdio::piped()).spawn().expect("trials does not start");
    let input = program.stdin.take().unwrap();
    let output = BufReader::new(program.stdout.take().unwrap());
    Mutex::new(Trials { _program: program, input, output })
}

fn proved(text: &[u8], room: usize) -> Outcome {
    let mut trials = TRIALS.get_or_init(trials).lock().unwrap();
    let frame = [format!("read {} {}\n", text.len(), room).as_bytes(), text, b"\n"].concat();
    trials.input.write_all(&frame).unwrap();
    let mut line = String::new();
    trials.output.read_line(&mut line).unwrap();
    let (told, runs) = line.trim_end().split_once(" table").expect("a line of another form");
    let table = runs
        .split_whitespace()
        .flat_map(|run| {
            let (value, count) = run.split_once('*').unwrap();
            vec![value.parse().unwrap(); count.parse().unwrap()]
        })
        .collect();
    let mut numbers = told.split(' ').filter_map(|word| word.parse::<u64>().ok());
    let mut next = || numbers.next().unwrap();
    if told.starts_with("refused") {
        return Outcome { number: next(), place: next(), table, ..Default::default() };
    }
    let (top, constant, vars) = (next(), next(), next());
    let sizes = (0..vars).map(|_| next()).collect();
    let functions = next();
    let rows = (0..functions)
        .map(|_| {
            let arity = next();
            std::iter::once(arity).chain((0..arity).map(|_| next()).collect::<Vec<_>>()).collect()
        })
        .collect();
    Outcome { number: 0, place: 0, top, constant, sizes, rows, table }
}

struct Random(u64);
impl Random {
    fn next(&mut self, n: u64) -> u64 {
        self.0 ^= self.0 << 13;
        self.0 ^= self.0 >> 7;
        self.0 ^= self.0 << 17;
        (self.0 >> 11) % n
    }
}

fn random_text(r: &mut Random, heavy: bool) -> Vec<u8> {
    let n = if heavy { 20 } else { r.next(6) };
    let sizes: Vec<u64> = (0..n).map(|_| if heavy { 6 } else { 1 + r.next(4) }).collect();
    let k = [1u64, 9, 10, 1000, 1_000_000_000_000][r.next(5) as usize];
    let f = if heavy { 100 } else { r.next(7) };
    let mut t = format!("net {} {} {} {}\n", n, sizes.iter().max().unwrap_or(&0), f, k);
    t += &(sizes.iter().map(|d| d.to_string()).collect::<Vec<_>>().join(" "));
    t += "\n";
    for _ in 0..f {
        let arity = r.next(4).min(n);
        let mut xs: Vec<u64> = Vec::new();
        while (xs.len() as u64) < arity {
            let x = r.next(n);
            if !xs.contains(&x) {
                xs.push(x);
            }
        }
        t += &arity.to_string();
        for x in &xs {
            t += &format!(" {}", x);
        }
        let ds: Vec<u64> = xs.iter().map(|&x| sizes[x as usize]).collect();
        let many: u64 = ds.iter().product();
        if arity > 0 && r.next(3) == 0 {
            t += &format!(" -1 wsum {} {} {} {}\n", ["hard", "lin", "quad"][r.next(3) as usize], r.next(20), ["==", "!=", "<", "<=", ">", ">="][r.next(6) as usize], r.next(8));
            continue;
        }
        let count = if arity == 0 { 0 } else { r.next(many + 1) };
        t += &format!(" {} {}\n", r.next(15), count);
        let mut left: Vec<u64> = (0..many).collect();
        for _ in 0..count {
            let e = left.swap_remove(r.next(left.len() as u64) as usize);
            let mut rest = e;
            let mut vs = vec![0; ds.len()];
            for j in (0..ds.len()).rev() {
                vs[j] = rest % ds[j];
                rest /= ds[j];
            }
            for v in vs {
                t += &format!("{} ", v);
            }
            t += &format!("{}\n", r.next(15));
        }
    }
    t.into_bytes()
}

fn compare(text: &[u8], room: usize, counts: &mut [u64; 8]) {
    let (a, b) = (ordinary(text, room), proved(text, room));
    if a != b {
        eprintln!("DIFFER on {:?} room {}\nordinary {:?}\nproved   {:?}", String::from_utf8_lossy(text), room, a, b);
        std::process::exit(1);
    }
    counts[a.number as usize] += 1;
}

fn expect(name: &str, text: &[u8], room: usize, number: u64, place: u64, counts: &mut [u64; 8]) {
    compare(text, room, counts);
    let b = proved(text, room);
    if (b.number, b.place) != (number, place) {
        eprintln!("{}: {} at {}, expected {} at {}", name, b.number, b.place, number, place);
        std::process::exit(1);
    }
}

fn main() {
    let mut counts = [0u64; 8];
    let c = &mut counts;
    // networks A, B and C of document 01
    let a = b"plan 3 2 4 10\n2 2 2\n1 0 0 1\n1 3\n2 0 1 0 2\n0 0 5\n1 1 5\n2 1 2 0 1\n1 0 4\n0 1 0\n";
    let b = b"one 1 2 1 9\n2\n1 0 4 1\n1 6\n";
    let n = b"none 1 1 1 5\n1\n1 0 5 0\n";
    for (t, e) in [(&a[..], 14), (&b[..], 2), (&n[..], 1)] {
        expect("network", t, e, 0, 0, c);
        expect("network, more room", t, e + 3, 0, 0, c);
        expect("network, less room", t, e - 1, 7, 0, c);
    }
    println!("A {:?}", proved(a, 14));
    // the limits
    let many = |n: usize| format!("x {} 1 0 5 {}", n, "1 ".repeat(n)).into_bytes();
    expect("N 64", &many(64), 4096, 0, 0, c);
    expect("N 65", &many(65), 4096, 3, 2, c);
    expect("size 16", b"x 1 16 0 5 16", 4096, 0, 0, c);
    expect("size 17", b"x 1 16 0 5 17", 4096, 3, 11, c);
    expect("greatest 17", b"x 1 17 0 5 16", 4096, 3, 4, c);
    expect("name 64", format!("{} 0 0 0 5", "n".repeat(64)).as_bytes(), 0, 0, 0, c);
    expect("name 65", format!("  {} 0 0 0 5", "n".repeat(65)).as_bytes(), 0, 2, 2, c);
    for b in (0..=255u8).filter(|&b| !white(b)) {
        let (number, place) = if (33..=126).contains(&b) { (0, 0) } else { (2, 1) };
        for at in [0, 31, 63] {
            let mut text = [vec![b' '], vec![b'n'; 64], b" 0 0 0 5".to_vec()].concat();
            text[1 + at] = b;
            expect("a byte of a name", &text, 0, number, place, c);
        }
    }
    expect("a name with an accent", "\n caf\u{e9} 0 0 0 5".as_bytes(), 0, 2, 2, c);
    expect("an accent behind the name", "x 0 0 0 5\u{e9}".as_bytes(), 0, 2, 8, c);
    expect("an accent at the end", "x 0 0 0 5 \u{e9}".as_bytes(), 0, 6, 10, c);
    expect("65,536 bytes", &[b"x 0 0 0 5".to_vec(), vec![b' '; 65_527]].concat(), 0, 0, 0, c);
    expect("65,537 bytes", &[b"x 0 0 0 5".to_vec(), vec![b' '; 65_528]].concat(), 0, 1, 0, c);
    // E: sixteen variables of size 16 have 256 entries, and fifteen functions of two of them 3,840
    let e = |ones: usize| {
        let head = format!("x {} 16 15 5 {}{}", 16 + ones, "16 ".repeat(16), "1 ".repeat(ones));
        (format!("{}{}", head, "2 0 1 0 0 ".repeat(15)).into_bytes(), head.len() as u64 + 14 * 10 + 4)
    };
    expect("E 4,096", &e(0).0, 4096, 0, 0, c);
    expect("E 4,096, less room", &e(0).0, 4095, 7, 0, c);
    expect("E 4,097", &e(1).0, 4097, 3, e(1).1, c);
    let functions = |n: usize| format!("x 0 0 {} 5 {}", n, "0 1 0 ".repeat(n)).into_bytes();
    expect("256 functions", &functions(256), 0, 0, 0, c);
    expect("257 functions", &functions(257), 0, 3, 6, c);
    expect("13 digits", b"x 1 1 1 5 1 1 0 9999999999999 0", 1, 0, 0, c);
    expect("14 digits", b"x 1 1 1 5 1 1 0 00000000000009 0", 1, 2, 16, c);
    expect("k 10^12", b"x 0 0 0 1000000000000", 0, 0, 0, c);
    expect("k above", b"x 0 0 0 1000000000001", 0, 3, 8, c);
    expect("k 0", b"x 0 0 0 0", 0, 3, 8, c);
    expect("wsum", b"x 2 4 1 9 4 4 2 0 1 -1 wsum lin 2 > 4", 24, 0, 0, c);
    let w = proved(b"x 2 4 1 9 4 4 2 0 1 -1 wsum lin 2 > 4", 24);
    assert_eq!((w.table[8 + 4 + 3], w.table[8 + 8 + 3]), (2, 0), "Sum 4 costs 2, Sum 5 costs 0");
    let w = proved(b"x 2 4 1 9 4 4 2 0 1 -1 wsum lin 2 < 4", 24);
    assert_eq!((w.table[8 + 3], w.table[8 + 4 + 3], w.table[8 + 12 + 3]), (0, 2, 6), "Sum 3 has no gap, Sum 4 has 1, Sum 6 has 3");
    // each refusal at each kind of token
    expect("empty", b"", 0, 2, 0, c);
    expect("white", b" \n\t\r ", 0, 2, 5, c);
    expect("missing", b"x 3  ", 0, 2, 5, c);
    expect("vertical tab", b"x\x0b 0 0 0 5", 0, 2, 0, c);
    expect("vertical tab behind the name", b"x 0 0\x0b0 5", 0, 2, 4, c);
    expect("sign", b"x +1 0 0 5", 0, 2, 2, c);
    expect("greatest of none", b"x 0 1 0 5", 0, 4, 4, c);
    expect("greatest", b"x 2 3 0 5 1 2", 3, 4, 12, c);
    expect("greatest before", b"x 2 1 0 5 2 0", 3, 3, 12, c);
    expect("arity", b"x 1 1 1 5 1 4", 1, 3, 12, c);
    expect("unknown", b"x 1 1 1 5 1 1 1 0 0", 1, 4, 14, c);
    expect("unknown, large", b"x 1 1 1 5 1 1 9999999999999 0 0", 1, 4, 14, c);
    expect("twice", b"x 2 1 1 5 1 1 2 0 0 0 0", 3, 4, 18, c);
    expect("count", b"x 1 2 1 5 2 1 0 0 3", 2, 3, 18, c);
    expect("count of arity 0", b"x 0 0 1 5 0 0 1", 0, 3, 14, c);
    expect("mark of arity 0", b"x 0 0 1 5 0 -1 wsum lin 1 < 1", 0, 2, 12, c);
    expect("-01", b"x 1 1 1 5 1 1 0 -01 wsum lin 1 < 1", 1, 2, 16, c);
    expect("keyword", b"x 1 1 1 5 1 1 0 -1 WSUM lin 1 < 1", 1, 2, 19, c);
    expect("mode", b"x 1 1 1 5 1 1 0 -1 wsum line 1 < 1", 1, 2, 24, c);
    expect("base", b"x 1 1 1 5 1 1 0 -1 wsum hard 1000000000001 < 1", 1, 3, 29, c);
    expect("comparator", b"x 1 1 1 5 1 1 0 -1 wsum hard 1 = 1", 1, 2, 31, c);
    expect("K", b"x 1 1 1 5 1 1 0 -1 wsum hard 1 < 1001", 1, 3, 33, c);
    expect("value", b"x 1 2 1 5 2 1 0 0 1 2 1", 2, 4, 20, c);
    expect("twice listed", b"x 1 2 1 5 2 1 0 0 2 1 1 1 x", 2, 5, 24, c);
    expect("4 before 5", b"x 1 2 1 5 2 1 0 0 2 1 1 2 1", 2, 4, 24, c);
    expect("cost", b"x 1 2 1 5 2 1 0 0 1 1 y", 2, 2, 22, c);
    expect("after", b"x 0 0 0 5 y", 0, 6, 10, c);
    // many texts, whole and damaged
    let mut r = Random(0x1234_5678_9abc_def1);
    for i in 0..40_000 {
        let text = random_text(&mut r, i % 400 == 0);
        compare(&text, r.next(300) as usize + if i % 2 == 0 { 4096 } else { 0 }, c);
        let mut t = text;
        for _ in 0..3 {
            if t.is_empty() {
                break;
            }
            let p = r.next(t.len() as u64) as usize;
            match r.next(5) {
                0 => t[p] = b"0123456789 -<>=x\n"[r.next(17) as usize],
                1 => {
                    t.remove(p);
                }
                2 => t.insert(p, b"0123456789 -<>=x\n"[r.next(17) as usize]),
                3 => t.truncate(p),
                _ => t[p] = r.next(256) as u8,
            }
            compare(&t, r.next(300) as usize, c);
        }
    }
    println!("alike, by number of the answer: {:?}", counts);
    // time on texts of 65,536 bytes
    let mut dense = String::from("dense 8 12 12 1000\n12 12 12 12 12 12 12 12\n");
    let mut f = 0;
    'outer: loop {
        let (x, y) = (f % 8, (f + 1 + f / 8) % 8);
        let mut s = format!("2 {} {} 0 144\n", x, y);
        for a in 0..12 {
            for b in 0..12 {
                s += &format!("{} {} {}\n", a, b, (a * 7 + b * 5 + f) % 50);
            }
        }
        if f == 12 || dense.len() + s.len() > 65_536 {
            break 'outer;
        }
        dense += &s;
        f += 1;
    }
    let dense = dense.replace(" 12 1000\n", &format!(" {} 1000\n", f));
    let mut unary = String::from("unary 64 16 256 1000\n");
    unary += &"16 ".repeat(64);
    for i in 0..256 {
        unary += &format!("\n1 {} 3 16", i % 64);
        for a in 0..16 {
            unary += &format!("\n{} {}", a, 100_000_000 + a * i);
        }
    }
    for (name, text) in [("functions of two", dense), ("functions of one", unary)] {
        let mut t = text.into_bytes();
        t.resize(65_536, b' ');
        let mut table = vec![0u64; 4096];
        assert_eq!(ordinary(&t, 4096), { let mut o = proved(&t, 4096); o.table = { let mut x = o.table; x.truncate(4096); x }; o });
        let (mut best_a, mut best_b) = (u128::MAX, u128::MAX);
        for _ in 0..300 {
            let s = Instant::now();
            std::hint::black_box(inner(std::hint::black_box(&t), 4096).is_ok());
            best_a = best_a.min(s.elapsed().as_nanos());
            let s = Instant::now();
            std::hint::black_box(unsafe { read_text(t.as_ptr(), t.len(), table.as_mut_ptr(), table.len()) });
            best_b = best_b.min(s.elapsed().as_nanos());
        }
        println!("{}: ordinary {} ns, proved {} ns, ratio {:.2}", name, best_a, best_b, best_b as f64 / best_a as f64);
    }
}
