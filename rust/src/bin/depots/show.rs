//! The table of the depots, and what each has decided: as a script writes it, or told in words.

use crate::cluster::{days, written, Cluster};
use crate::tell;
use hire_depots::Depot;

pub fn lines(cluster: &Cluster) -> Vec<String> {
    let mut lines = vec!["    depot role     phase   promise    round      log decided buffered queue  days".to_string()];
    lines.extend(cluster.depots.iter().enumerate().map(|(i, depot)| row(i + 1, depot)));
    for (i, depot) in cluster.depots.iter().enumerate() {
        let standing = if cluster.tells { standing(i + 1, depot) } else { written_out(i + 1, depot) };
        lines.extend(standing.into_iter().map(|line| format!("    {line}")));
    }
    if cluster.tells {
        lines.push(format!("    {}", verdict(cluster)));
    }
    for (i, row) in cluster.links.iter().enumerate() {
        for (j, link) in row.iter().enumerate() {
            let on_its_way = link.iter().map(|m| format!("    on its way from {} to {}: {}", i + 1, j + 1, m.message.told()));
            lines.extend(on_its_way);
        }
    }
    lines
}

fn row(pid: usize, depot: &Depot) -> String {
    let r = &depot.record;
    let role = if r[8] == 1 { "Leader" } else { "Follower" };
    let phase = ["Prepare", "Accept", "Recover", "None"].get(r[9] as usize).copied().unwrap_or("?");
    let (promise, round) = (tell::ballot(&r[0..3]), tell::ballot(&r[3..6]));
    let days = days(depot);
    format!("    {pid:<5} {role:<8} {phase:<7} {promise:<10} {round:<10} {:<3} {:<7} {:<8} {:<6} {days}", r[7], r[6], r[13], r[10])
}

/// A depot's entries as a script writes them, in one line, and a line for each of its pumps.
fn written_out(pid: usize, depot: &Depot) -> Vec<String> {
    let all: Vec<String> = written(depot).iter().map(|e| tell::entry(*e)).collect();
    let decided = depot.decided().len().min(all.len());
    let mut lines = vec![format!("depot {pid}: decided [{}], not decided [{}]", all[..decided].join(" "), all[decided..].join(" "))];
    let pumps = depot.book.chunks_exact(3).enumerate().filter_map(|(pump, cells)| match (cells[1], cells[2]) {
        (0, 0) => None,
        (0, days) => Some(format!("  pump {pump}: in the yard, {days} days charged")),
        (out, days) => Some(format!("  pump {pump}: away since day {}, {days} days charged", out - 1)),
    });
    lines.extend(pumps);
    lines
}

/// What a depot has decided and what it has only written down, entry by entry, and where its pumps are.
pub fn standing(pid: usize, depot: &Depot) -> Vec<String> {
    let all = written(depot);
    let decided = depot.decided().len().min(all.len());
    let mut lines = listed(&format!("depot {pid} has decided"), 0, &all[..decided]);
    if decided < all.len() {
        lines.extend(listed(&format!("depot {pid} has written down, not decided"), decided, &all[decided..]));
    }
    lines.extend((0..256).filter_map(|pump| pump_at(pid, pump, depot)));
    lines
}

fn listed(what: &str, from: usize, entries: &[u64]) -> Vec<String> {
    if entries.is_empty() {
        return vec![format!("{what} nothing")];
    }
    let mut lines = vec![format!("{what}:")];
    lines.extend(entries.iter().enumerate().map(|(i, e)| format!("  {}. {}", from + i + 1, tell::entry_in_words(*e))));
    lines
}

fn pump_at(pid: usize, pump: usize, depot: &Depot) -> Option<String> {
    let cells = &depot.book[3 * pump..3 * pump + 3];
    let charged = format!("{} charged", tell::days(cells[2]));
    match (cells[1], cells[2]) {
        (0, 0) => None,
        (0, _) => Some(format!("by depot {pid}'s book pump {pump} is in the yard, {charged}")),
        (out, _) => Some(format!("by depot {pid}'s book pump {pump} is away since day {}, {charged}", out - 1)),
    }
}

pub fn verdict(cluster: &Cluster) -> String {
    match cluster.difference() {
        Some(words) => format!("THE DEPOTS DIFFER: {words}"),
        None => "the depots agree on every decided entry".to_string(),
    }
}
