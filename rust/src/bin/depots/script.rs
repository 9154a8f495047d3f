//! One line of a script, read whole before anything is done.

use crate::tell::Reason;

/// A ballot: round, priority, pid.
pub type Ballot = [u64; 3];

#[derive(Debug, PartialEq)]
pub enum Command {
    Cluster { depots: u64, sizes: Option<(u64, u64)> },
    Title(String),
    Rule { old: bool },
    Leader { at: u64, ballot: Ballot },
    Propose { at: u64, entries: Vec<u64> },
    Drain { at: u64 },
    Deliver { from: u64, to: u64, count: Count },
    Lose { from: u64, to: u64, count: Count },
    Reconnect { at: u64, pid: u64 },
    Resend { at: u64 },
    Restart { at: u64 },
    Show,
    Chart,
}

#[derive(Debug, PartialEq, Clone, Copy)]
pub enum Count {
    Number(u64),
    All,
}

/// A line's command and its comment, each trimmed. A `#` starts the comment.
pub fn parts(line: &str) -> (&str, &str) {
    match line.split_once('#') {
        Some((command, comment)) => (command.trim(), comment.trim()),
        None => (line.trim(), ""),
    }
}

/// The command that the text says, or why it says none.
pub fn read(text: &str) -> Result<Command, Reason> {
    let words: Vec<&str> = text.split_ascii_whitespace().collect();
    let Some((name, given)) = words.split_first() else { return Err("it is empty".to_string()) };
    match *name {
        "cluster" => cluster(given),
        "title" => title(given),
        "rule" => rule(given),
        "leader" => leader(given),
        "propose" => propose(given),
        "deliver" => moved(given, "deliver").map(|(from, to, count)| Command::Deliver { from, to, count }),
        "lose" => moved(given, "lose").map(|(from, to, count)| Command::Lose { from, to, count }),
        "reconnect" => reconnect(given),
        "drain" => Ok(Command::Drain { at: lone_depot(given, "drain DEPOT")? }),
        "resend" => Ok(Command::Resend { at: lone_depot(given, "resend DEPOT")? }),
        "restart" => Ok(Command::Restart { at: lone_depot(given, "restart DEPOT")? }),
        "show" => alone(given, "show").map(|()| Command::Show),
        "chart" => alone(given, "chart").map(|()| Command::Chart),
        other => Err(format!("`{other}` is no command")),
    }
}

fn write_so<T>(form: &str) -> Result<T, Reason> {
    Err(format!("write `{form}`"))
}

fn alone(given: &[&str], form: &str) -> Result<(), Reason> {
    if given.is_empty() { Ok(()) } else { write_so(form) }
}

fn lone_depot(given: &[&str], form: &str) -> Result<u64, Reason> {
    match given {
        [at] => number(at, "depot"),
        _ => write_so(form),
    }
}

/// Digits and nothing else: no sign, no space.
fn number(word: &str, name: &str) -> Result<u64, Reason> {
    if word.is_empty() || !word.bytes().all(|b| b.is_ascii_digit()) {
        return Err(format!("{name} `{word}` is not a number"));
    }
    word.parse().map_err(|_| format!("{name} {word} does not fit into 64 bits"))
}

fn cluster(given: &[&str]) -> Result<Command, Reason> {
    let (depots, sizes) = match given {
        [depots] => (number(depots, "depots")?, None),
        [depots, "read", read, "write", write] => {
            (number(depots, "depots")?, Some((number(read, "read size")?, number(write, "write size")?)))
        }
        _ => return write_so("cluster DEPOTS` or `cluster DEPOTS read SIZE write SIZE"),
    };
    if !(2..=7).contains(&depots) {
        return Err(format!("{depots} depots: a cluster has 2 to 7"));
    }
    Ok(Command::Cluster { depots, sizes })
}

fn title(given: &[&str]) -> Result<Command, Reason> {
    if given.is_empty() {
        return write_so("title WORDS..");
    }
    Ok(Command::Title(given.join(" ")))
}

fn rule(given: &[&str]) -> Result<Command, Reason> {
    match given {
        ["old"] => Ok(Command::Rule { old: true }),
        ["ours"] => Ok(Command::Rule { old: false }),
        _ => write_so("rule old` or `rule ours"),
    }
}

fn leader(given: &[&str]) -> Result<Command, Reason> {
    let form = "leader DEPOT ROUND` or `leader DEPOT ROUND.PRIORITY.PID";
    let [at, ballot] = given else { return write_so(form) };
    let at = number(at, "depot")?;
    let parts: Vec<&str> = ballot.split('.').collect();
    let ballot = match parts[..] {
        [round] => [number(round, "round")?, 0, at],
        [round, priority, pid] => [number(round, "round")?, number(priority, "priority")?, number(pid, "pid")?],
        _ => return write_so(form),
    };
    if ballot[0] > u32::MAX as u64 || ballot[1] > u32::MAX as u64 {
        return Err("a round or a priority is below 4294967296".to_string());
    }
    Ok(Command::Leader { at, ballot })
}

fn propose(given: &[&str]) -> Result<Command, Reason> {
    let Some((at, entries)) = given.split_first() else { return write_so("propose DEPOT ENTRY..") };
    let at = number(at, "depot")?;
    let entries = entries.iter().map(|word| entry(word)).collect::<Result<_, _>>()?;
    Ok(Command::Propose { at, entries })
}

/// An entry: a decimal, `out:PUMP:DAY` or `back:PUMP:DAY`.
fn entry(word: &str) -> Result<u64, Reason> {
    let parts: Vec<&str> = word.split(':').collect();
    let (kind, pump, day) = match parts[..] {
        [decimal] if decimal != "out" && decimal != "back" => return number(decimal, "entry"),
        ["out", pump, day] => (0, pump, day),
        ["back", pump, day] => (1, pump, day),
        _ => return Err(format!("entry `{word}`: write a number, out:PUMP:DAY or back:PUMP:DAY")),
    };
    let (pump, day) = (number(pump, "pump")?, number(day, "day")?);
    if pump > 255 {
        return Err(format!("pump {pump}: pumps are 0 to 255"));
    }
    if day > 65_535 {
        return Err(format!("day {day}: days are 0 to 65535"));
    }
    Ok((day * 2 + kind) * 256 + pump)
}

fn moved(given: &[&str], name: &str) -> Result<(u64, u64, Count), Reason> {
    let (from, to, count) = match given {
        [from, to] => (from, to, Count::Number(1)),
        [from, to, "all"] => (from, to, Count::All),
        [from, to, count] => (from, to, Count::Number(number(count, "count")?)),
        _ => return write_so(&format!("{name} FROM TO`, `{name} FROM TO N` or `{name} FROM TO all")),
    };
    Ok((number(from, "depot")?, number(to, "depot")?, count))
}

fn reconnect(given: &[&str]) -> Result<Command, Reason> {
    let [at, pid] = given else { return write_so("reconnect DEPOT PID") };
    Ok(Command::Reconnect { at: number(at, "depot")?, pid: number(pid, "pid")? })
}
