// Times two programs that search the same fifteen networks and print a line for each, `cost nodes`: `measure RUNS PROVED ORDINARY`.
// What is timed is the processor time (user and system) that a program's process has used when each of its lines arrives, so that
// the three shapes are told apart without a program for each; the runs alternate, so that a busy machine slows both alike.
use std::io::{BufRead, BufReader};
use std::process::{Command, Stdio};

const SHAPES: [&str; 3] = [
    "12 variables of size 4, 30 binary and 10 ternary functions",
    "6 variables of size 16, 15 binary functions",
    "20 variables of size 2, 100 binary and 30 ternary functions",
];
const NETWORKS: usize = 5;

// The standard library reads no other process's clock; /proc/PID/schedstat lags by up to a tick.
extern "C" {
    fn clock_getcpuclockid(process: i32, clock: *mut i32) -> i32;
    fn clock_gettime(clock: i32, seconds_and_ns: *mut [i64; 2]) -> i32;
}

fn used_ns(process: u32) -> i64 {
    let (mut clock, mut time) = (0, [0; 2]);
    let failed = unsafe { clock_getcpuclockid(process as i32, &mut clock) != 0 || clock_gettime(clock, &mut time) != 0 };
    assert!(!failed, "no clock of process {}", process);
    time[0] * 1_000_000_000 + time[1]
}

// the lines, and the time that each shape and then all of them took, in ns
fn run(program: &str) -> (Vec<String>, Vec<f64>) {
    let mut child = Command::new(program).stdout(Stdio::piped()).spawn().expect(program);
    let mut lines = Vec::new();
    let mut at = vec![0];
    for line in BufReader::new(child.stdout.take().unwrap()).lines() {
        // the clock stays readable after the program's end, until the wait below
        at.push(used_ns(child.id()));
        lines.push(line.expect("a line"));
    }
    assert!(child.wait().expect("an end").success(), "{} failed", program);
    assert_eq!(lines.len(), SHAPES.len() * NETWORKS, "lines of {program}");
    let mut times: Vec<f64> = (0..SHAPES.len()).map(|s| (at[(s + 1) * NETWORKS] - at[s * NETWORKS]) as f64).collect();
    times.push(at[lines.len()] as f64);
    (lines, times)
}

fn least_and_median(runs: &[Vec<f64>], which: usize) -> [f64; 2] {
    let mut sorted: Vec<f64> = runs.iter().map(|times| times[which]).collect();
    sorted.sort_by(f64::total_cmp);
    [sorted[0], (sorted[(sorted.len() - 1) / 2] + sorted[sorted.len() / 2]) / 2.0]
}

fn main() {
    let args: Vec<String> = std::env::args().collect();
    let [_, runs, proved, ordinary] = &args[..] else { panic!("give RUNS PROVED ORDINARY") };
    let runs: usize = runs.parse().ok().filter(|&r| r > 0).expect("a number of runs");

    let mut times = [Vec::new(), Vec::new()];
    let mut first: Option<Vec<String>> = None;
    for _ in 0..runs {
        for (program, times) in [proved, ordinary].iter().zip(&mut times) {
            let (lines, took) = run(program);
            assert_eq!(first.get_or_insert(lines.clone()), &lines, "{program} prints other lines");
            times.push(took);
        }
    }
    println!("both print the same {} lines; least / median of {runs} alternating runs each", SHAPES.len() * NETWORKS);

    let per_line = first.unwrap().iter().map(|l| l.split(' ').nth(1).unwrap().parse().unwrap()).collect::<Vec<u64>>();
    let mut nodes: Vec<u64> = per_line.chunks(NETWORKS).map(|five| five.iter().sum()).collect();
    nodes.push(nodes.iter().sum());
    for (s, name) in SHAPES.iter().chain(&["all"]).enumerate() {
        println!("{name}: {} nodes", nodes[s]);
        let both = times.each_ref().map(|runs| least_and_median(runs, s));
        for (program, ns) in ["proved", "ordinary"].iter().zip(both) {
            let [l, m] = ns.map(|t| t / 1_000.0 / nodes[s] as f64);
            println!("  {program:8}  {:8.1} / {:8.1} ms  {l:6.2} / {m:6.2} µs a node", ns[0] / 1e6, ns[1] / 1e6);
        }
        println!("  ratio     {:8.2} / {:8.2}", both[0][0] / both[1][0], both[0][1] / both[1][1]);
    }
}
