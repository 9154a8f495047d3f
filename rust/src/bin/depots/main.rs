//! `depots SCRIPT`: runs a cluster of 2 to 7 depots from a plain script and prints what each step answered (docs/SCRIPT.md).
//! Everything that a box decides is the linked library's proved step; this program reads lines, keeps the links, prints and draws.

mod chart;
mod cluster;
mod options;
mod script;
mod show;
mod story;
mod svg;
mod tell;

use cluster::Cluster;
use options::{Call, Options};
use script::Command;
use std::fs::File;
use std::io::{self, BufRead, BufReader, BufWriter, Read, Write};
use std::os::fd::AsFd;
use std::process::ExitCode;

const BAD_LINE: u8 = 1;
const FAILED: u8 = 2;
/// What a shell says of a tool that SIGPIPE ended.
const NOBODY_READS: u8 = 141;

/// Sixteen entries need less than 400; an input without line ends is not kept in memory.
const LONGEST_LINE: u64 = 65_536;

/// Why a run ends before its script does.
enum Stop {
    BadLine(usize, tell::Reason),
    Unreadable(io::Error),
    Unwritable(io::Error),
}

/// All that ran: the cluster at work, and those before it where a chart of them is asked for.
struct Runs {
    keeps_past: bool,
    tells: bool,
    past: Vec<Cluster>,
    now: Option<Cluster>,
}

impl Runs {
    fn all(&self) -> Vec<&Cluster> {
        self.past.iter().chain(&self.now).collect()
    }

    fn start(&mut self, cluster: Cluster) {
        let ended = self.now.replace(cluster);
        self.past.extend(ended.filter(|_| self.keeps_past));
    }

    /// Runs one line; `Err` names why it cannot be run, and then nothing was done.
    fn run(&mut self, number: usize, text: &str, comment: &str) -> Result<Vec<String>, tell::Reason> {
        let command = script::read(text)?;
        if let Command::Cluster { depots, sizes } = command {
            self.start(Cluster::new(depots, sizes, self.tells));
            return Ok(Vec::new());
        }
        let cluster = self.now.as_mut().ok_or("the first line is `cluster DEPOTS`")?;
        cluster.story.at_line(number, comment);
        match command {
            Command::Show => Ok(show::lines(cluster)),
            Command::Chart => Ok(chart::lines(cluster)),
            _ => cluster.run(&command),
        }
    }
}

/// Runs the script line by line. What a line gave is written before the next one is waited for.
fn run_all(script: &mut dyn BufRead, out: &mut dyn Write, runs: &mut Runs) -> Result<(), Stop> {
    let mut line = Vec::new();
    for number in 1.. {
        line.clear();
        if script.take(LONGEST_LINE + 1).read_until(b'\n', &mut line).map_err(Stop::Unreadable)? == 0 {
            break;
        }
        if line.len() as u64 > LONGEST_LINE {
            return Err(Stop::BadLine(number, format!("it is longer than {LONGEST_LINE} bytes")));
        }
        let said = run_line(&line, number, out, runs);
        out.flush().map_err(Stop::Unwritable)?;
        said?;
    }
    Ok(())
}

fn run_line(line: &[u8], number: usize, out: &mut dyn Write, runs: &mut Runs) -> Result<(), Stop> {
    let bad = |reason: tell::Reason| Stop::BadLine(number, reason);
    let line = std::str::from_utf8(line).map_err(|_| bad("it is not text".to_string()))?;
    let (text, comment) = script::parts(line);
    if text.is_empty() {
        return Ok(());
    }
    writeln!(out, "{number:>3} {text}").map_err(Stop::Unwritable)?;
    for said in runs.run(number, text, comment).map_err(bad)? {
        writeln!(out, "{said}").map_err(Stop::Unwritable)?;
    }
    Ok(())
}

/// The script's bytes. A file of its own and not `io::stdin()`, which takes a stream that cannot be read for an empty one.
fn open(options: &Options) -> io::Result<Box<dyn BufRead>> {
    let file = match &options.script {
        Some(name) => File::open(name)?,
        None => File::from(io::stdin().as_fd().try_clone_to_owned()?),
    };
    Ok(Box::new(BufReader::new(file)))
}

fn run(options: &Options) -> ExitCode {
    let mut script = match open(options) {
        Ok(script) => script,
        Err(e) => return unreadable(options, &e),
    };
    // Not `io::stdout()`, which takes a stream that cannot be written for one that takes everything.
    let mut out = match io::stdout().as_fd().try_clone_to_owned() {
        Ok(fd) => BufWriter::new(File::from(fd)),
        Err(e) => return unwritable(&e),
    };
    let mut runs = Runs { keeps_past: options.chart || options.svg.is_some(), tells: options.tell, past: Vec::new(), now: None };
    let ran = match options.chart {
        true => run_all(&mut script, &mut io::sink(), &mut runs),
        false => run_all(&mut script, &mut out, &mut runs),
    };
    match ran {
        Ok(()) => draw(options, &runs, &mut out),
        Err(Stop::BadLine(number, reason)) => match writeln!(out, "bad line {number}: {reason}").and_then(|()| out.flush()) {
            Ok(()) => ExitCode::from(BAD_LINE),
            Err(e) => unwritable(&e),
        },
        Err(Stop::Unreadable(e)) => unreadable(options, &e),
        Err(Stop::Unwritable(e)) => unwritable(&e),
    }
}

fn draw(options: &Options, runs: &Runs, out: &mut dyn Write) -> ExitCode {
    if let Some(name) = &options.svg {
        if let Err(e) = std::fs::write(name, svg::drawing(&runs.all())) {
            return failed(&format!("{} cannot be written: {e}", name.to_string_lossy()));
        }
    }
    if !options.chart {
        return ExitCode::SUCCESS;
    }
    let charts: Vec<String> = runs.all().into_iter().map(|c| chart::lines(c).join("\n") + "\n").collect();
    match out.write_all(charts.join("\n").as_bytes()).and_then(|()| out.flush()) {
        Ok(()) => ExitCode::SUCCESS,
        Err(e) => unwritable(&e),
    }
}

fn unreadable(options: &Options, e: &io::Error) -> ExitCode {
    let name = options.script.as_ref().map_or("standard input".into(), |name| name.to_string_lossy());
    failed(&format!("{name} cannot be read: {e}"))
}

fn unwritable(e: &io::Error) -> ExitCode {
    if e.kind() == io::ErrorKind::BrokenPipe {
        return ExitCode::from(NOBODY_READS);
    }
    failed(&format!("standard output cannot be written: {e}"))
}

fn failed(why: &str) -> ExitCode {
    // Standard error may be closed too, and then nobody can be told.
    let _ = writeln!(io::stderr(), "depots: {why}");
    ExitCode::from(FAILED)
}

fn print(text: &str) -> ExitCode {
    match io::stdout().write_all(text.as_bytes()).and_then(|()| io::stdout().flush()) {
        Ok(()) => ExitCode::SUCCESS,
        Err(e) => unwritable(&e),
    }
}

fn main() -> ExitCode {
    match options::read(std::env::args_os().skip(1)) {
        Ok(Call::Help) => print(include_str!("help.txt")),
        Ok(Call::Version) => print(&format!("depots {}\n", env!("CARGO_PKG_VERSION"))),
        Ok(Call::Run(options)) => run(&options),
        Err(why) => failed(&format!("{why}; depots --help says more")),
    }
}
