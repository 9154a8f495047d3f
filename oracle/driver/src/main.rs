// Side by side: the given Rust text and the port, the same steps to both, everything compared after each.
mod bench;
mod broken;
mod cluster;
mod expect;
mod limits;
mod list;
mod made;
mod pair;
mod port;
mod random;
mod rules;
mod script;
mod short;
mod tape;

use rules::Table;
use script::{Found, Script};
use std::time::Instant;

/// How much of each kind of input a run takes.
struct Sizes {
    clusters: u64,
    cluster_steps: u64,
    records: u64,
    limits: u64,
    short: bool,
}

const STANDARD: Sizes = Sizes { clusters: 2400, cluster_steps: 1000, records: 400_000, limits: 300_000, short: true };
const QUICK: Sizes = Sizes { clusters: 120, cluster_steps: 1000, records: 40_000, limits: 40_000, short: false };

struct Run {
    started: Instant,
    steps: u64,
    differences: u64,
    stop_at_first: bool,
}

struct Suite {
    name: &'static str,
    steps: u64,
    table: Table,
}

impl Run {
    fn took(&mut self, outcome: Result<u64, Box<Found>>, seed: u64, suite: &mut Suite) {
        match outcome {
            Ok(steps) => {
                suite.steps += steps;
                self.steps += steps;
            }
            Err(found) => self.tell(*found, seed, suite.name),
        }
    }

    fn tell(&mut self, found: Found, seed: u64, suite: &str) {
        self.differences += 1;
        println!("DIFFERENCE in {suite}, seed {seed}, after {} steps: {}", self.steps, found.difference.0.chars().take(600).collect::<String>());
        if !self.stop_at_first && self.differences <= 5 {
            println!("the smallest script found (oracle/compare replay FILE):\n{}", found.script.shrunk().text());
        }
    }

    fn over(&self) -> bool {
        self.differences >= if self.stop_at_first { 1 } else { 20 }
    }

    /// `count` runs from rising seeds, with a line of progress now and then.
    fn many(&mut self, name: &'static str, base: u64, count: u64, mut one: impl FnMut(u64, u64, &mut Table) -> Result<u64, Box<Found>>) -> Suite {
        let mut suite = Suite { name, steps: 0, table: Table::empty() };
        for i in 0..count {
            if self.over() {
                break;
            }
            let seed = base.wrapping_mul(1_000_000_007).wrapping_add(i);
            let outcome = one(i, seed, &mut suite.table);
            self.took(outcome, seed, &mut suite);
            if !self.stop_at_first && (i + 1) % (count / 8).max(1) == 0 {
                println!(
                    "{name}: {} of {count}, seed {seed}, {} steps, {} differences, {} s",
                    i + 1,
                    suite.steps,
                    self.differences,
                    self.started.elapsed().as_secs()
                );
            }
        }
        suite
    }

    fn short(&mut self) -> Suite {
        let mut suite = Suite { name: "short scripts", steps: 0, table: Table::empty() };
        for start in short::STARTS {
            let outcome = short::run(start, &mut suite.table);
            let steps = *outcome.as_ref().unwrap_or(&0);
            self.took(outcome, 0, &mut suite);
            println!("short scripts: {}, {steps} steps, {} differences, {} s", start.name, self.differences, self.started.elapsed().as_secs());
        }
        suite
    }
}

fn compare(base: u64, sizes: &Sizes, stop_at_first: bool) -> (Run, Vec<Suite>) {
    let mut run = Run { started: Instant::now(), steps: 0, differences: 0, stop_at_first };
    let profiles = cluster::PROFILES;
    let mut suites =
        vec![run.many("clusters", base, sizes.clusters, |i, seed, t| cluster::run(&profiles[i as usize % profiles.len()], seed, sizes.cluster_steps, t))];
    suites.push(run.many("hand-made", base, sizes.records, |_, seed, t| made::run(seed, t)));
    suites.push(run.many("limits", base, sizes.limits, |i, seed, t| limits::run(i, seed, t)));
    if sizes.short && !run.over() {
        suites.push(run.short());
    }
    (run, suites)
}

/// The rules reached, counted by kind of input; how many were reached too seldom.
fn print_table(suites: &[Suite], least: u64) -> usize {
    let mut all = Table::empty();
    suites.iter().for_each(|s| all.add(&s.table));
    let heads: Vec<String> = suites.iter().map(|s| format!("{:>13}", s.name)).collect();
    println!("\n{}           all  rule", heads.join(""));
    for rule in rules::RULES {
        let counts: Vec<String> = suites.iter().map(|s| format!("{:>13}", s.table.count(rule))).collect();
        println!("{}{:>14}  {rule}", counts.join(""), all.count(rule));
    }
    let seldom = all.below(least);
    seldom.iter().for_each(|r| println!("reached fewer than {least} times: {r}"));
    println!("\n{} rules, {} of them reached fewer than {least} times", rules::RULES.len(), seldom.len());
    seldom.len()
}

fn standard(base: u64) -> bool {
    let names: Vec<&str> = cluster::PROFILES.iter().map(|p| p.name).collect();
    println!("seed {base}; clusters: {}", names.join(", "));
    let (run, suites) = compare(base, &STANDARD, false);
    let seldom = print_table(&suites, 1000);
    for s in &suites {
        println!("{}: {} steps", s.name, s.steps);
    }
    println!("hand-made records: {}", STANDARD.records);
    println!("{} steps, {} differences, {} s", run.steps, run.differences, run.started.elapsed().as_secs());
    run.differences == 0 && seldom == 0
}

/// A short run that ends at the first difference; for the list of mistakes.
fn quick(base: u64) -> bool {
    let (run, _) = compare(base, &QUICK, true);
    println!("{} steps, {} differences", run.steps, run.differences);
    run.differences == 0
}

fn read_scripts(file: &str) -> Vec<(String, Script)> {
    match std::fs::read_to_string(file) {
        Ok(text) => Script::parse(&text),
        Err(e) => {
            eprintln!("compare: {file}: {e}");
            std::process::exit(2)
        }
    }
}

fn replay(file: &str) -> bool {
    let mut alike = true;
    for (about, script) in read_scripts(file) {
        print!("{about}");
        match script.run() {
            Ok(()) => println!("{} steps, no difference", script.steps.len()),
            Err((at, d)) => {
                println!("step {}: {}", at + 1, d.0);
                alike = false;
            }
        }
    }
    alike
}

fn tell(file: &str) -> bool {
    for (about, script) in read_scripts(file) {
        print!("\n{about}");
        script.tell();
    }
    true
}

fn main() {
    let args: Vec<String> = std::env::args().skip(1).collect();
    let word = |i: usize| args.get(i).map(String::as_str);
    let base = word(1).and_then(|s| s.parse().ok()).unwrap_or(1);
    // what the text panics with is caught and compared
    std::panic::set_hook(Box::new(|_| ()));
    let alike = match word(0).unwrap_or("standard") {
        "standard" => standard(base),
        "quick" => quick(base),
        "replay" => replay(word(1).unwrap_or("")),
        "tell" => tell(word(1).unwrap_or("")),
        "bench" => bench::run(base),
        "list" => {
            let (text, steps) = list::list();
            print!("{text}");
            eprintln!("{steps} steps, {} bytes", text.len());
            true
        }
        other => {
            eprintln!("compare: standard [SEED] | quick [SEED] | replay FILE | tell FILE | power | list | bench [SEED], not {other}");
            false
        }
    };
    std::process::exit(!alike as i32);
}
