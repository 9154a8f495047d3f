//! The chart of a run as text: a column for each depot, time downwards, a cross where a message is lost.

use crate::cluster::Cluster;
use crate::show;
use crate::story::{wrapped, Row, Story, What};

/// Where the first column stands, after the script's line numbers.
const FIRST: usize = 6;
/// How wide the words beside the last column may be.
const LAST_WIDTH: usize = 52;

pub fn lines(cluster: &Cluster) -> Vec<String> {
    let story = &cluster.story;
    if story.too_long {
        return vec![format!("{}: too long for a chart", title(story))];
    }
    let grid = Grid { depots: story.depots, gap: gap(story.depots) };
    let mut lines = vec![title(story), String::new(), grid.heads(), grid.empty().line()];
    for row in &story.rows {
        lines.extend(grid.row(story, row));
    }
    lines.push(grid.empty().line());
    for (i, depot) in cluster.depots.iter().enumerate() {
        lines.extend(show::standing(i + 1, depot));
    }
    lines.push(show::verdict(cluster));
    lines
}

fn title(story: &Story) -> String {
    if story.title.is_empty() { format!("A run of {} depots", story.depots) } else { story.title.clone() }
}

fn gap(depots: usize) -> usize {
    match depots {
        2 => 48,
        3 => 42,
        _ => 34,
    }
}

struct Grid {
    depots: usize,
    gap: usize,
}

/// One line of the chart, as its characters.
struct Canvas(Vec<char>);

impl Canvas {
    fn put(&mut self, x: usize, text: &str) {
        for (i, c) in text.chars().enumerate() {
            if self.0.len() <= x + i {
                self.0.resize(x + i + 1, ' ');
            }
            self.0[x + i] = c;
        }
    }

    fn line(&self) -> String {
        self.0.iter().collect::<String>().trim_end().to_string()
    }
}

impl Grid {
    fn x(&self, depot: usize) -> usize {
        FIRST + depot * self.gap
    }

    fn is_column(&self, x: usize) -> bool {
        (0..self.depots).any(|depot| self.x(depot) == x)
    }

    fn heads(&self) -> String {
        let mut canvas = Canvas(Vec::new());
        canvas.put(0, "line");
        for depot in 0..self.depots {
            canvas.put(self.x(depot), &format!("depot {}", depot + 1));
        }
        canvas.line()
    }

    /// Nothing but the depots' lines.
    fn empty(&self) -> Canvas {
        let mut canvas = Canvas(Vec::new());
        for depot in 0..self.depots {
            canvas.put(self.x(depot), "│");
        }
        canvas
    }

    fn row(&self, story: &Story, row: &Row) -> Vec<String> {
        let mut lines = self.texts(self.depots - 1, &comment(row));
        let mut mark = self.mark(story, row);
        let mut words = self.words(story, row);
        // The first words of an event or a drain stand beside its mark, the words of a message below its arrow.
        if let (What::Event { at, .. } | What::Sends { at, .. }, false) = (&row.what, words.is_empty()) {
            mark = self.beside(&mark, *at, &words.remove(0));
        }
        lines.push(format!("{:>4}{}", row.line, mark.chars().skip(4).collect::<String>()));
        lines.append(&mut words);
        lines
    }

    fn words(&self, story: &Story, row: &Row) -> Vec<String> {
        let Some(owner) = story.owner(row) else { return Vec::new() };
        let mut texts = sends(story, row);
        texts.extend(story.texts(row).into_iter().map(|text| text.words));
        self.texts(owner, &texts)
    }

    /// The mark's line with the words of another line put in after the depot's place.
    fn beside(&self, mark: &str, depot: usize, words: &str) -> String {
        let mut canvas = Canvas(mark.chars().collect());
        let after = self.x(depot) + 1;
        let rest: String = words.chars().skip(after).collect();
        canvas.put(after, &rest);
        canvas.line()
    }

    /// Words to the right of a depot's line.
    fn texts(&self, depot: usize, texts: &[String]) -> Vec<String> {
        let width = if depot + 1 == self.depots { LAST_WIDTH } else { self.gap - 4 };
        let lines = texts.iter().flat_map(|text| {
            wrapped(text, width - 2).into_iter().enumerate().map(|(i, line)| if i == 0 { line } else { format!("  {line}") })
        });
        lines.map(|line| {
            let mut canvas = self.empty();
            canvas.put(self.x(depot) + 2, &line);
            canvas.line()
        }).collect()
    }

    fn mark(&self, story: &Story, row: &Row) -> String {
        let mut canvas = self.empty();
        match &row.what {
            What::Rule { old } => {
                let which = if *old { "the old rule from here on" } else { "our rule from here on" };
                canvas.put(self.x(self.depots - 1) + 2, which);
            }
            What::Event { at, .. } => canvas.put(self.x(*at), "●"),
            What::Sends { at, .. } => canvas.put(self.x(*at), "■"),
            What::Arrives { message } => self.arrow(&mut canvas, story, *message, true),
            What::Lost { message } => self.arrow(&mut canvas, story, *message, false),
        }
        canvas.line()
    }

    /// From the sender's line to the receiver's, or to a cross on the way.
    fn arrow(&self, canvas: &mut Canvas, story: &Story, id: usize, arrives: bool) {
        let passage = &story.passages[id];
        let (from, to) = (self.x(passage.from), self.x(passage.message.to() - 1));
        let right = from < to;
        let (low, high) = (from.min(to), from.max(to));
        for x in low + 1..high {
            canvas.put(x, if self.is_column(x) { "┼" } else { "─" });
        }
        canvas.put(from, if right { "├" } else { "┤" });
        let label = format!(" {} {} ", tag(id), passage.message.label());
        canvas.put(if right { from + 3 } else { from - 2 - label.chars().count() }, &label);
        if arrives {
            canvas.put(if right { to - 1 } else { to + 1 }, if right { ">" } else { "<" });
            return;
        }
        let cross = if right { from + self.gap - 8 } else { from - (self.gap - 8) };
        let beyond = if right { cross + 1..high } else { low + 1..cross };
        for x in beyond {
            canvas.put(x, if self.is_column(x) { "│" } else { " " });
        }
        canvas.put(cross, "╳");
        canvas.put(if right { cross + 2 } else { cross - 5 }, "lost");
    }
}

/// A line for each message that a drain hands out.
fn sends(story: &Story, row: &Row) -> Vec<String> {
    let What::Sends { messages, .. } = &row.what else { return Vec::new() };
    let line = |id: &usize| {
        let message = &story.passages[*id].message;
        format!("to {}: {} {}", message.to(), tag(*id), message.label())
    };
    messages.iter().map(line).collect()
}

fn tag(id: usize) -> String {
    format!("#{}", id + 1)
}

fn comment(row: &Row) -> Vec<String> {
    if row.note.is_empty() { Vec::new() } else { vec![format!("# {}", row.note)] }
}
