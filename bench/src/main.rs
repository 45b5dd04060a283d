//! Times the route call beside other libraries and code by hand, and the fork call beside it.
//!
//!     bench                                     the tables
//!     bench one PEER/KIND/N/CARDS/LEGS TIMES    so many calls, to count their instructions; CARDS is sparse or complete
//!     bench rows                                how many rows the first stage goes through, and the time of a route
//!     bench forks                               the time of a fork, beside that of a route with two legs
//!     bench ticket                              writes the largest ticket
//!     bench program PROGRAM TICKET              times whole runs of the program on it

mod cases;
mod peers;

use cases::{Case, Kind};
use peers::{peer, Peer};
use std::fs::File;
use std::hint::black_box;
use std::process::{Command, Stdio};
use std::time::Instant;

const SIZES: [usize; 4] = [8, 16, 32, 64];
const LEGS: [usize; 2] = [1, 32];
const BATCH_SECONDS: f64 = 0.01;
const ROUNDS: usize = 12;

fn cards(n: usize, complete: bool) -> usize {
    let pairs = n * (n - 1);
    if complete {
        pairs
    } else {
        (pairs + 5) / 10
    }
}

fn seconds(peer: &mut Peer, calls: usize) -> f64 {
    let start = Instant::now();
    for _ in 0..calls {
        black_box(peer(None));
    }
    start.elapsed().as_secs_f64()
}

/// What is measured for one set of cards.
struct Group {
    kind: Kind,
    n: usize,
    complete: bool,
    runs: Vec<Run>,
}

struct Run {
    name: &'static str,
    peer: Peer,
    calls: usize,
    nanoseconds: f64,
}

impl Run {
    // Warms up, and finds how many calls make a batch.
    fn new(name: &'static str, mut peer: Peer) -> Run {
        let mut calls = 1;
        while seconds(&mut peer, calls) < BATCH_SECONDS {
            calls *= 2;
        }
        Run { name, peer, calls, nanoseconds: f64::INFINITY }
    }

    // Another batch. The best one counts.
    fn measure(&mut self) {
        self.nanoseconds = self.nanoseconds.min(seconds(&mut self.peer, self.calls) / self.calls as f64 * 1e9);
    }
}

impl Group {
    fn new(kind: Kind, n: usize, complete: bool) -> Group {
        let cards = cards(n, complete);
        let [one, many] = LEGS.map(|legs| Case::new(kind, n, cards, legs));
        let mut runs = vec![Run::new("1", peer("ours", &one)), Run::new("32", peer("ours", &many))];
        let peers: &[&str] = match kind {
            Kind::Delay => &["hand", "boost", "boost-plus", "petgraph", "hand-bf", "boost-bf", "petgraph-bf"],
            Kind::Depth => &["hand", "boost"],
        };
        runs.extend(peers.iter().map(|name| Run::new(name, peer(name, &many))));
        // Each finds our costs, and our chains have them.
        for (k, &leg) in many.legs.iter().enumerate() {
            let cost = (runs[1].peer)(Some(leg));
            for Run { name, peer, .. } in &mut runs {
                let asked = match *name {
                    "1" => k == 0,
                    name => !name.ends_with("-bf") || leg.from == many.legs[0].from,
                };
                if asked {
                    assert_eq!(peer(Some(leg)), cost, "{name}, {n} formats, {cards} cards, leg {k}: another cost");
                }
            }
        }
        Group { kind, n, complete, runs }
    }

    // Another batch of each.
    fn measure(&mut self) {
        self.runs.iter_mut().for_each(Run::measure);
    }

    fn of(&self, name: &str) -> f64 {
        self.runs.iter().find(|run| run.name == name).map_or(f64::NAN, |run| run.nanoseconds)
    }

    fn ours(&self, legs: usize) -> f64 {
        self.of(&legs.to_string())
    }

    // The faster of the ways to call it.
    fn boost(&self) -> f64 {
        self.of("boost").min(self.of("boost-plus"))
    }

    fn title(&self, legs: usize) -> String {
        let kind = if self.kind == Kind::Delay { "delay" } else { "depth" };
        format!("{kind} {:3} {:6} {legs:5}", self.n, cards(self.n, self.complete))
    }
}

// A time, and how many times as long our call takes.
fn beside(ours: f64, peer: f64) -> String {
    if peer.is_nan() {
        format!("{:>11} {:>6}", "-", "-")
    } else {
        format!("{peer:11.0} {:6.2}", ours / peer)
    }
}

fn tables() {
    let mut groups = Vec::new();
    for kind in [Kind::Delay, Kind::Depth] {
        for n in SIZES {
            groups.extend([false, true].map(|complete| Group::new(kind, n, complete)));
        }
    }
    for _ in 0..ROUNDS {
        groups.iter_mut().for_each(Group::measure);
    }
    println!("nanoseconds per call; x is ours / peer\n");
    println!("against the least costs of all pairs (Floyd-Warshall), without chains; boost-plus sums by std::plus");
    table(&["hand", "boost", "boost-plus", "petgraph"], &groups, &LEGS);
    println!("\nagainst the least costs from one source (Bellman-Ford); petgraph keeps predecessors too");
    table(&["hand-bf", "boost-bf", "petgraph-bf"], &groups[..groups.len() / 2], &[1]);
    println!("\ntargets (the worst case of each)");
    let largest = |complete| groups.iter().filter(move |group| group.n == 64 && group.complete == complete);
    let default = |group: &Group| group.of("boost");
    for legs in LEGS {
        println!("{legs} leg{}", if legs == 1 { "" } else { "s" });
        target("64 formats, complete: ours / Boost", 1.0, legs, largest(true), default);
        target("64 formats, complete: ours / Boost by the faster sum", 1.0, legs, largest(true), Group::boost);
        target("64 formats, 10 % of the cards: ours / Boost", 0.5, legs, largest(false), default);
        target("64 formats, 10 % of the cards: ours / Boost by the faster sum", 0.5, legs, largest(false), Group::boost);
        let delays = groups.iter().filter(|group| group.kind == Kind::Delay);
        target("every size: ours / petgraph", 1.0, legs, delays, |group| group.of("petgraph"));
    }
}

fn table(peers: &[&str], groups: &[Group], legs: &[usize]) {
    let titles = peers.iter().map(|name| format!(" {name:>11}      x"));
    println!("kind    n  cards  legs        ours{}", titles.collect::<String>());
    for group in groups {
        for &legs in legs {
            let ours = group.ours(legs);
            let cells = peers.iter().map(|name| format!(" {}", beside(ours, group.of(name))));
            println!("{} {ours:11.0}{}", group.title(legs), cells.collect::<String>());
        }
    }
}

fn target<'a>(what: &str, limit: f64, legs: usize, groups: impl Iterator<Item = &'a Group>, peer: fn(&Group) -> f64) {
    let cases = groups.map(|group| (group.ours(legs) / peer(group), group.title(legs)));
    let (ratio, title) = cases.max_by(|a, b| a.0.total_cmp(&b.0)).unwrap();
    let met = if ratio <= limit { "met" } else { "MISSED" };
    println!("  {what} at most {limit}: {ratio:.2} {met} ({})", title.split_whitespace().collect::<Vec<_>>().join(" "));
}

fn one(name: &str, times: usize) {
    let words: Vec<&str> = name.split('/').collect();
    let [who, kind, n, density, legs] = words[..] else { panic!("{name}: not PEER/KIND/N/CARDS/LEGS") };
    let kind = if kind == "depth" { Kind::Depth } else { Kind::Delay };
    let n = n.parse().unwrap();
    let case = Case::new(kind, n, cards(n, density == "complete"), legs.parse().unwrap());
    let mut peer = peer(who, &case);
    for _ in 0..times {
        black_box(peer(None));
    }
}

// With few cards most rows of the first stage have nothing to pass on.
fn rows() {
    println!("rows that the first stage goes through, of 2016 at 64 formats, and nanoseconds of a route with one leg");
    println!("cards     rows       delay       depth");
    for percent in [2, 10, 50, 100] {
        let cards = (64 * 63 * percent + 50) / 100;
        let cases = [Kind::Delay, Kind::Depth].map(|kind| Case::new(kind, 64, cards, 1));
        let rows = cases[0].rows();
        let mut runs = cases.each_ref().map(|case| Run::new("1", peer("ours", case)));
        for _ in 0..ROUNDS {
            runs.iter_mut().for_each(Run::measure);
        }
        println!("{percent:3} % {rows:8} {:11.0} {:11.0}", runs[0].nanoseconds, runs[1].nanoseconds);
    }
}

// An input split over two outputs, beside a route from the input to both.
fn forks() {
    println!("nanoseconds of a fork at 64 formats, and of a route with two legs from its input; x is fork / route");
    println!("kind   cards        fork       route      x");
    for (kind, name) in [(Kind::Delay, "delay"), (Kind::Depth, "depth")] {
        for complete in [false, true] {
            let cards = cards(64, complete);
            let mut case = Case::new(kind, 64, cards, 2);
            case.legs[1].from = case.legs[0].from;
            let mut runs = ["fork", "ours"].map(|name| Run::new(name, peer(name, &case)));
            for run in &mut runs {
                assert!((run.peer)(Some(case.legs[0])).is_some(), "{}: no chain", run.name);
            }
            for _ in 0..ROUNDS {
                runs.iter_mut().for_each(Run::measure);
            }
            let [fork, route] = runs.map(|run| run.nanoseconds);
            println!("{name} {cards:6} {fork:11.0} {}", beside(fork, route));
        }
    }
}

/// 64 formats, 512 cards and 32 legs.
fn largest() -> Case {
    Case::new(Kind::Delay, 64, 512, 32)
}

fn program(path: &str, ticket: &str) {
    let run = |path: &str| {
        let start = Instant::now();
        let input = File::open(ticket).unwrap();
        let output = Command::new(path).stdin(input).stderr(Stdio::inherit()).output().unwrap();
        assert!(output.status.success(), "{path}: {}", output.status);
        (start.elapsed().as_secs_f64() * 1e6, String::from_utf8(output.stdout).unwrap())
    };
    let case = largest();
    let mut hand = peer("hand", &case);
    let answer = run(path).1;
    assert_eq!(answer.lines().count(), case.legs.len() + 1, "the program prints {answer}");
    for (k, (line, &leg)) in answer.lines().zip(&case.legs).enumerate() {
        let cost = hand(Some(leg)).map_or("none)".to_string(), |cost| format!("{} (", case.text_of(cost)));
        let begin = format!("(leg {k} ({} {}) {cost}", leg.from, leg.to);
        assert!(line.starts_with(&begin), "the program prints {line}, and not {begin}");
    }
    for path in [path, "/bin/true"] {
        let mut times: Vec<f64> = (0..500).map(|_| run(path).0).collect();
        times.sort_by(f64::total_cmp);
        let name = path.rsplit('/').next().unwrap();
        println!("{name}: {:.0} µs at best, {:.0} µs in the middle of {} runs", times[0], times[250], times.len());
    }
}

fn main() {
    let args: Vec<String> = std::env::args().skip(1).collect();
    let args: Vec<&str> = args.iter().map(String::as_str).collect();
    match args[..] {
        [] => tables(),
        ["one", name, times] => one(name, times.parse().unwrap()),
        ["rows"] => rows(),
        ["forks"] => forks(),
        ["ticket"] => print!("{}", largest().ticket()),
        ["program", path, ticket] => program(path, ticket),
        _ => panic!("bench [one NAME TIMES | rows | forks | ticket | program PROGRAM TICKET]"),
    }
}
