// The planner's method in plain Rust, to time against: rustc -O bench/plan.rs.
// Reads nets as crates/batch/out/batch does, prints their areas, and with `time R` the time of R plans of each on stderr.
// A plan makes the table of lengths from the points, solves it, and lists wires and marks.
use std::hint::black_box;
use std::io::Read;
use std::time::Instant;

const N: usize = 64;

#[derive(Clone, Copy)]
struct Pin {
    x: u16,
    y: u16,
    current: i32,
}

struct Wire {
    from: u32,
    to: u32,
    current: u32,
}

struct Plan {
    wires: Vec<Wire>,
    marks: [u32; N],
    area: u64,
}

// The cost from source i to sink j stands at N * i + j.
struct Case {
    sources: Vec<usize>,
    sinks: Vec<usize>,
    stock: [u32; N],
    want: [u32; N],
    cost: [u32; N * N],
}

fn length(a: Pin, b: Pin) -> u32 {
    u32::from(a.x.abs_diff(b.x)) + u32::from(a.y.abs_diff(b.y))
}

fn case_of(pins: &[Pin]) -> Case {
    let sources: Vec<usize> = (0..pins.len()).filter(|&i| pins[i].current > 0).collect();
    let sinks: Vec<usize> = (0..pins.len()).filter(|&i| pins[i].current < 0).collect();
    let mut case = Case {
        stock: [0; N],
        want: [0; N],
        cost: [0; N * N],
        sources,
        sinks,
    };
    for (i, &from) in case.sources.iter().enumerate() {
        case.stock[i] = pins[from].current.unsigned_abs();
        for (j, &to) in case.sinks.iter().enumerate() {
            case.cost[N * i + j] = length(pins[from], pins[to]);
        }
    }
    for (j, &to) in case.sinks.iter().enumerate() {
        case.want[j] = pins[to].current.unsigned_abs();
    }
    case
}

struct Solver<'a> {
    case: &'a Case,
    m: usize,
    n: usize,
    flow: [u32; N * N],
    stock: [u32; N],
    want: [u32; N],
    source_mark: [u32; N],
    sink_mark: [u32; N],
    slack: [u32; N],
    toward: [usize; N],
    done: [bool; N],
    reached: [bool; N],
    parent: [usize; N],
    room: [u32; N],
}

impl<'a> Solver<'a> {
    fn new(case: &'a Case) -> Self {
        Solver {
            case,
            m: case.sources.len(),
            n: case.sinks.len(),
            flow: [0; N * N],
            stock: case.stock,
            want: case.want,
            source_mark: [0; N],
            sink_mark: [0; N],
            slack: [0; N],
            toward: [0; N],
            done: [false; N],
            reached: [false; N],
            parent: [0; N],
            room: [0; N],
        }
    }

    fn reach(&mut self, sink: usize) {
        self.reached[sink] = true;
        for i in 0..self.m {
            let gap = self.source_mark[i] + self.case.cost[N * i + sink] - self.sink_mark[sink];
            if gap < self.slack[i] {
                self.slack[i] = gap;
                self.toward[i] = sink;
            }
        }
    }

    fn nearest(&self) -> usize {
        let mut best = usize::MAX;
        let mut least = u32::MAX;
        for i in 0..self.m {
            if !self.done[i] && self.slack[i] < least {
                least = self.slack[i];
                best = i;
            }
        }
        best
    }

    fn raise(&mut self, by: u32) {
        for i in 0..self.m {
            if self.done[i] {
                self.source_mark[i] += by;
            } else {
                self.slack[i] -= by;
            }
        }
        for j in 0..self.n {
            if self.reached[j] {
                self.sink_mark[j] += by;
            }
        }
    }

    // Grows the tree of a root to a source that has something left.
    fn grow(&mut self, root: usize) -> usize {
        self.slack = [u32::MAX; N];
        self.done = [false; N];
        self.reached = [false; N];
        self.room[root] = self.want[root];
        self.reach(root);
        loop {
            let source = self.nearest();
            let by = self.slack[source];
            if by > 0 {
                self.raise(by);
            }
            if self.stock[source] > 0 {
                return source;
            }
            self.done[source] = true;
            for j in 0..self.n {
                let served = self.flow[N * source + j];
                if served > 0 && !self.reached[j] {
                    self.parent[j] = source;
                    self.room[j] = self.room[self.toward[source]].min(served);
                    self.reach(j);
                }
            }
        }
    }

    fn augment(&mut self, root: usize, mut source: usize) {
        let amount = self.stock[source].min(self.room[self.toward[source]]);
        self.stock[source] -= amount;
        self.want[root] -= amount;
        loop {
            let sink = self.toward[source];
            self.flow[N * source + sink] += amount;
            if sink == root {
                return;
            }
            source = self.parent[sink];
            self.flow[N * source + sink] -= amount;
        }
    }

    fn neediest(&self) -> Option<usize> {
        let mut found = None;
        let mut most = 0;
        for j in 0..self.n {
            if self.want[j] > most {
                most = self.want[j];
                found = Some(j);
            }
        }
        found
    }

    fn run(&mut self) {
        while let Some(root) = self.neediest() {
            let source = self.grow(root);
            self.augment(root, source);
        }
    }
}

fn plan(pins: &[Pin]) -> Plan {
    let case = case_of(pins);
    let mut solver = Solver::new(&case);
    solver.run();
    let mut plan = Plan {
        wires: Vec::with_capacity(2 * N),
        marks: [0; N],
        area: 0,
    };
    for (i, &from) in case.sources.iter().enumerate() {
        plan.marks[from] = solver.source_mark[i];
        for (j, &to) in case.sinks.iter().enumerate() {
            let current = solver.flow[N * i + j];
            if current > 0 {
                plan.area += u64::from(current) * u64::from(case.cost[N * i + j]);
                plan.wires.push(Wire { from: from as u32 + 1, to: to as u32 + 1, current });
            }
        }
    }
    for (j, &to) in case.sinks.iter().enumerate() {
        plan.marks[to] = solver.sink_mark[j];
    }
    plan
}

// The wires meet every pin, and the marks show that no wires use less: what is timed is really a plan.
fn check(pins: &[Pin], plan: &Plan) {
    let mut balance: Vec<i64> = pins.iter().map(|p| i64::from(p.current)).collect();
    for wire in &plan.wires {
        balance[wire.from as usize - 1] -= i64::from(wire.current);
        balance[wire.to as usize - 1] += i64::from(wire.current);
    }
    assert!(balance.iter().all(|&b| b == 0));
    let worth: i64 = pins.iter().zip(plan.marks).map(|(p, mark)| -i64::from(p.current) * i64::from(mark)).sum();
    assert_eq!(worth, plan.area as i64);
}

fn nets_of(text: &str) -> Vec<Vec<Pin>> {
    let mut words = text.split_ascii_whitespace().map(|word| word.parse::<i32>().expect("a number"));
    let mut nets = Vec::new();
    while let Some(count) = words.next() {
        let mut next = || words.next().expect("a pin");
        nets.push((0..count).map(|_| Pin { x: next() as u16, y: next() as u16, current: next() }).collect());
    }
    nets
}

fn main() {
    let rounds: u32 = std::env::args().nth(2).and_then(|r| r.parse().ok()).unwrap_or(0);
    let mut text = String::new();
    std::io::stdin().read_to_string(&mut text).expect("text");
    let nets = nets_of(&text);
    let mut nanos = 0;
    for pins in &nets {
        let planned = plan(pins);
        check(pins, &planned);
        println!("{}", planned.area);
        let start = Instant::now();
        for _ in 0..rounds {
            black_box(plan(black_box(pins)));
        }
        nanos += start.elapsed().as_nanos();
    }
    eprintln!("{} microseconds, {} plans", nanos / 1_000, nets.len() as u32 * rounds);
}
