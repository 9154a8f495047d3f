//! The chart of a run as a drawing: depots as columns, time downwards, an arrow for each message, a cross for a loss.

use crate::cluster::{days, written, Cluster};
use crate::show;
use crate::story::{wrapped, Answered, Passage, Row, Story, Text, Tone, What};
use crate::tell::{self, Message};
use hire_depots::Depot;
use std::collections::BTreeSet;
use std::fmt::Write;

const MARGIN: f64 = 24.0;
/// The script's comments stand left of the columns, where there are any, the words of the first depot between them and its line.
const NOTES: f64 = 236.0;
const NUMBERS: f64 = 34.0;
const SIDE: f64 = 312.0;
const LINE: f64 = 17.0;
/// About how wide a character of the running text is; no font is measured.
const CHARACTER: f64 = 6.6;
const MOST_LISTED: usize = 8;

const INK: &str = "#1f2933";
const FAINT: &str = "#6b7682";
const ARROW: &str = "#2f5d8a";
const GONE: &str = "#8b949e";
const ALARM: &str = "#b3261e";
const GOOD: &str = "#1f7a3d";
const IGNORED: &str = "#9a5b00";
const WAITS: &str = "#e3a13a";

pub fn drawing(runs: &[&Cluster]) -> String {
    let mut page = Page::default();
    let mut y = MARGIN;
    let mut kinds = BTreeSet::new();
    for cluster in runs {
        y = Panel::new(&cluster.story, y).draw(&mut page, cluster) + 56.0;
        kinds.extend(cluster.story.passages.iter().map(|p| p.message.kind()));
    }
    if runs.is_empty() {
        page.text(MARGIN, y + 20.0, Style::plain(FAINT), "no cluster ran");
        y += 40.0;
    } else {
        y = legend(&mut page, y, &kinds);
    }
    page.whole(y + MARGIN)
}

/// What is drawn so far, and how wide it is.
#[derive(Default)]
struct Page {
    body: String,
    width: f64,
}

#[derive(Clone, Copy)]
struct Style {
    size: f64,
    colour: &'static str,
    bold: bool,
    italic: bool,
    anchor: &'static str,
}

impl Style {
    fn plain(colour: &'static str) -> Style {
        Style { size: 13.0, colour, bold: false, italic: false, anchor: "start" }
    }

    fn bold(colour: &'static str) -> Style {
        Style { bold: true, ..Style::plain(colour) }
    }

    fn sized(self, size: f64) -> Style {
        Style { size, ..self }
    }

    fn anchored(self, anchor: &'static str) -> Style {
        Style { anchor, ..self }
    }

    fn of(tone: Tone) -> Style {
        match tone {
            Tone::Head => Style::bold(INK),
            Tone::Plain => Style::plain(INK),
            Tone::Faint => Style::plain(FAINT),
            Tone::Decided => Style::bold(GOOD),
            Tone::Ignored => Style::bold(IGNORED),
            Tone::Alarm => Style::bold(ALARM),
        }
    }
}

fn escaped(text: &str) -> String {
    // Control characters have no place in XML, not even escaped.
    let printable = text.chars().map(|c| if c.is_control() { ' ' } else { c });
    printable.fold(String::new(), |mut s, c| {
        match c {
            '&' => s.push_str("&amp;"),
            '<' => s.push_str("&lt;"),
            '>' => s.push_str("&gt;"),
            _ => s.push(c),
        }
        s
    })
}

impl Page {
    fn put(&mut self, element: std::fmt::Arguments) {
        // Writing to a string does not fail.
        let _ = self.body.write_fmt(element);
        self.body.push('\n');
    }

    fn text(&mut self, x: f64, y: f64, style: Style, words: &str) {
        self.turned(x, y, 0.0, style, words);
    }

    /// Words turned by an angle about their place. The white edge keeps them readable over a line.
    fn turned(&mut self, x: f64, y: f64, angle: f64, style: Style, words: &str) {
        if words.is_empty() {
            return;
        }
        let mut more = String::new();
        if style.bold {
            more += " font-weight=\"bold\"";
        }
        if style.italic {
            more += " font-style=\"italic\"";
        }
        if angle != 0.0 {
            more += &format!(" transform=\"rotate({angle:.1} {x:.1} {y:.1})\"");
        }
        let Style { size, colour, anchor, .. } = style;
        let words = escaped(words);
        self.put(format_args!("<text x=\"{x:.1}\" y=\"{y:.1}\" font-size=\"{size}\" fill=\"{colour}\" text-anchor=\"{anchor}\"{more}>{words}</text>"));
    }

    fn line(&mut self, from: (f64, f64), to: (f64, f64), colour: &str, width: f64, more: &str) {
        let ((x1, y1), (x2, y2)) = (from, to);
        self.put(format_args!(
            "<line x1=\"{x1:.1}\" y1=\"{y1:.1}\" x2=\"{x2:.1}\" y2=\"{y2:.1}\" stroke=\"{colour}\" stroke-width=\"{width}\"{more}/>"
        ));
    }

    fn rect(&mut self, x: f64, y: f64, w: f64, h: f64, fill: &str, stroke: &str) {
        let round = if w > 20.0 { 5 } else { 0 };
        self.put(format_args!(
            "<rect x=\"{x:.1}\" y=\"{y:.1}\" width=\"{w:.1}\" height=\"{h:.1}\" rx=\"{round}\" fill=\"{fill}\" stroke=\"{stroke}\"/>"
        ));
    }

    fn dot(&mut self, x: f64, y: f64, colour: &str) {
        self.put(format_args!("<circle cx=\"{x:.1}\" cy=\"{y:.1}\" r=\"5\" fill=\"{colour}\"/>"));
    }

    fn cross(&mut self, x: f64, y: f64) {
        const ARM: f64 = 8.0;
        self.line((x - ARM, y - ARM), (x + ARM, y + ARM), ALARM, 3.0, "");
        self.line((x - ARM, y + ARM), (x + ARM, y - ARM), ALARM, 3.0, "");
    }

    fn arrow_head(&mut self, at: (f64, f64), angle: f64, colour: &str) {
        let (x, y) = at;
        self.put(format_args!(
            "<path d=\"M0 0 L-11 -5 L-11 5 Z\" fill=\"{colour}\" transform=\"translate({x:.1} {y:.1}) rotate({angle:.1})\"/>"
        ));
    }

    fn whole(&self, height: f64) -> String {
        let width = self.width.max(320.0);
        format!(
            "<svg xmlns=\"http://www.w3.org/2000/svg\" width=\"{width:.0}\" height=\"{height:.0}\" viewBox=\"0 0 {width:.0} {height:.0}\" \
             font-family=\"Helvetica, Arial, 'Liberation Sans', 'DejaVu Sans', sans-serif\">\n\
             <style>text {{ paint-order: stroke; stroke: #ffffff; stroke-width: 3px; stroke-linejoin: round; }}</style>\n\
             <rect width=\"100%\" height=\"100%\" fill=\"#ffffff\"/>\n{}</svg>\n",
            self.body
        )
    }
}

#[derive(Clone, Copy, PartialEq)]
enum End {
    Taken,
    Ignored,
    Lost,
    OnItsWay,
}

/// A message's arrow; `side` is 1 where it goes to the right and -1 where it goes to the left.
struct Way {
    start: (f64, f64),
    stop: (f64, f64),
    side: f64,
    colour: &'static str,
    end: End,
}

impl Way {
    /// The angle by which words along it are turned, upright also where it goes to the left.
    fn slope(&self) -> f64 {
        ((self.stop.1 - self.start.1) / (self.stop.0 - self.start.0)).atan()
    }
}

/// One run's part of the page: where its columns and its rows are.
struct Panel<'a> {
    story: &'a Story,
    top: f64,
    gap: f64,
    notes: f64,
    /// Where each row is, and last where the rows end.
    rows: Vec<f64>,
}

impl<'a> Panel<'a> {
    fn new(story: &'a Story, top: f64) -> Panel<'a> {
        let gap = match story.depots {
            2 => 370.0,
            3 => 350.0,
            _ => 320.0,
        };
        let notes = if story.rows.iter().all(|row| row.note.is_empty()) { NUMBERS } else { NOTES };
        let mut panel = Panel { story, top, gap, notes, rows: Vec::new() };
        let mut y = top + 96.0;
        for row in &story.rows {
            panel.rows.push(y);
            y += panel.height(row);
        }
        panel.rows.push(y + 20.0);
        panel
    }

    fn x(&self, depot: usize) -> f64 {
        MARGIN + self.notes + SIDE + depot as f64 * self.gap
    }

    fn right(&self) -> f64 {
        self.x(self.story.depots - 1) + SIDE
    }

    fn height(&self, row: &Row) -> f64 {
        let notes = self.note_lines(row).len();
        let words = self.word_lines(row).len() + self.is_between(row) as usize;
        match row.what {
            What::Rule { .. } => 34.0,
            What::Sends { .. } if self.story.texts(row).is_empty() && notes == 0 => 24.0,
            What::Arrives { message } if self.left_with_others(message) => (notes.max(words) as f64 * LINE + 15.0).max(74.0),
            _ => notes.max(words).max(1) as f64 * LINE + 15.0,
        }
    }

    /// Whether a row's words stand between two columns, a line lower, so that no arrow's end is in their way.
    fn is_between(&self, row: &Row) -> bool {
        self.story.owner(row).is_some_and(|owner| owner > 0 && owner + 1 < self.story.depots)
    }

    /// Whether one drain handed the message out among others: their arrows start in one point, and their words need room.
    fn left_with_others(&self, message: usize) -> bool {
        let sent = self.story.passages[message].sent;
        self.story.passages.iter().filter(|other| other.sent == sent).count() > 1
    }

    fn note_lines(&self, row: &Row) -> Vec<String> {
        wrapped(&row.note, ((NOTES - NUMBERS - 16.0) / CHARACTER) as usize)
    }

    /// The words at a depot's column, cut to the room that is there.
    fn word_lines(&self, row: &Row) -> Vec<Text> {
        let room = if self.is_between(row) { self.gap - 40.0 } else { SIDE - 30.0 };
        let cut = |text: Text| wrapped(&text.words, (room / CHARACTER) as usize).into_iter().map(move |words| Text { tone: text.tone, words });
        self.story.texts(row).into_iter().flat_map(cut).collect()
    }

    /// Draws the run, and answers where it ends.
    fn draw(&self, page: &mut Page, cluster: &Cluster) -> f64 {
        page.width = page.width.max(self.right() + MARGIN);
        self.heading(page);
        if self.story.too_long {
            page.text(MARGIN, self.top + 60.0, Style::plain(FAINT), "too long for a chart");
            return self.top + 80.0;
        }
        self.columns(page);
        for id in 0..self.story.passages.len() {
            self.waiting(page, id);
        }
        let ways: Vec<_> = self.story.passages.iter().filter_map(|p| Some((&p.message, self.way(p)?))).collect();
        for (_, way) in &ways {
            self.arrow(page, way);
        }
        for (message, way) in &ways {
            self.label(page, message, way);
        }
        for (i, row) in self.story.rows.iter().enumerate() {
            self.row(page, row, self.rows[i]);
        }
        self.ending(page, cluster)
    }

    fn heading(&self, page: &mut Page) {
        let title = if self.story.title.is_empty() { format!("A run of {} depots", self.story.depots) } else { self.story.title.clone() };
        page.text(MARGIN, self.top + 20.0, Style::bold(INK).sized(21.0), &title);
    }

    fn columns(&self, page: &mut Page) {
        let (first, last) = (self.top + 66.0, self.rows[self.rows.len() - 1]);
        for depot in 0..self.story.depots {
            let x = self.x(depot);
            page.line((x, first), (x, last), "#b6bec7", 2.0, "");
            page.rect(x - 46.0, first - 26.0, 92.0, 28.0, "#eef3f8", "#7f93a8");
            page.text(x, first - 7.0, Style::bold(INK).sized(14.0).anchored("middle"), &format!("depot {}", depot + 1));
        }
    }

    /// A bar beside the sender's line for as long as a message waits in the queue while other things happen.
    fn waiting(&self, page: &mut Page, id: usize) {
        if !self.story.waited(id) {
            return;
        }
        let passage = &self.story.passages[id];
        let (from, to) = (self.rows[passage.queued], self.rows[passage.sent.unwrap_or(self.story.rows.len())]);
        let before = |other: &Passage| other.from == passage.from && other.queued < passage.sent.unwrap_or(usize::MAX) && other.sent.unwrap_or(usize::MAX) > passage.queued;
        let slot = (0..id).filter(|i| self.story.waited(*i) && before(&self.story.passages[*i])).count() as f64;
        // On the side where the depot's words do not stand.
        let inward = if passage.from == 0 { 1.0 } else { -1.0 };
        let x = self.x(passage.from) + inward * (6.0 + slot * 9.0);
        page.line((x, from), (x, to), WAITS, 6.0, " stroke-linecap=\"round\"");
    }

    /// How a message travelled: where it starts and stops, and its colour.
    fn way(&self, passage: &Passage) -> Option<Way> {
        let sent = passage.sent?;
        let (from, to) = (self.x(passage.from), self.x(passage.message.to() - 1));
        let side = (to - from).signum();
        let start = (from + side * 4.0, self.rows[sent]);
        let Some(ended) = passage.ended else {
            let stop = (from + side * self.gap * 0.5, self.rows[sent] + 34.0);
            return Some(Way { start, stop, side, colour: GONE, end: End::OnItsWay });
        };
        let row = &self.story.rows[ended];
        let (colour, end) = match (&row.what, row.answered) {
            (What::Lost { .. }, _) => (ALARM, End::Lost),
            (_, Answered::Unchanged) => (GONE, End::Ignored),
            (_, Answered::Taken) => (ARROW, End::Taken),
            (_, Answered::Refused(_)) => (ALARM, End::Taken),
        };
        let short = if end == End::Lost { self.gap * 0.3 } else { 0.0 };
        Some(Way { start, stop: (to - side * (3.0 + short), self.rows[ended]), side, colour, end })
    }

    fn arrow(&self, page: &mut Page, way: &Way) {
        let dashes = match way.end {
            End::OnItsWay => " stroke-dasharray=\"2 5\"",
            End::Ignored => " stroke-dasharray=\"7 5\"",
            End::Taken | End::Lost => "",
        };
        page.line(way.start, way.stop, way.colour, 1.8, dashes);
        match way.end {
            End::OnItsWay => (),
            End::Lost => page.cross(way.stop.0, way.stop.1),
            End::Taken | End::Ignored => page.arrow_head(way.stop, way.slope().to_degrees() + if way.side < 0.0 { 180.0 } else { 0.0 }, way.colour),
        }
    }

    /// The kind and number above the arrow, its entries below; towards its end, where arrows that left together are apart.
    fn label(&self, page: &mut Page, message: &Message, way: &Way) {
        let entries = if way.end == End::OnItsWay { String::new() } else { tell::entries_in_words(&message.entries) };
        let wide = entries.len().max(message.label().len()) as f64 * CHARACTER * 0.45 + 12.0;
        let (dx, dy) = (way.stop.0 - way.start.0, way.stop.1 - way.start.1);
        let back = (wide.max(self.gap * 0.36) / dx.abs()).min(0.5);
        let middle = (way.stop.0 - dx * back, way.stop.1 - dy * back);
        let angle = way.slope();
        let shifted = |by: f64| (middle.0 - angle.sin() * by, middle.1 + angle.cos() * by);
        let (above, below) = (shifted(-6.0), shifted(15.0));
        page.turned(above.0, above.1, angle.to_degrees(), Style::bold(way.colour).anchored("middle"), &message.label());
        page.turned(below.0, below.1, angle.to_degrees(), Style::plain(way.colour).sized(11.5).anchored("middle"), &entries);
        let said = match way.end {
            End::Lost => "lost",
            End::OnItsWay => "on its way",
            End::Taken | End::Ignored => return,
        };
        let anchor = if way.side > 0.0 { "start" } else { "end" };
        page.text(way.stop.0 + way.side * 16.0, way.stop.1 + 5.0, Style::bold(way.colour).anchored(anchor), said);
    }

    fn row(&self, page: &mut Page, row: &Row, y: f64) {
        if let What::Rule { old } = row.what {
            return self.rule(page, row, old, y);
        }
        self.note(page, row, y);
        let Some(owner) = self.story.owner(row) else { return };
        let x = self.x(owner);
        match row.what {
            What::Event { .. } => page.dot(x, y, INK),
            What::Sends { .. } => page.rect(x - 4.0, y - 4.0, 8.0, 8.0, ARROW, ARROW),
            _ => (),
        }
        let shift = if self.is_between(row) { LINE } else { 0.0 };
        let (at, anchor) = if owner == 0 { (x - 14.0, "end") } else { (x + 14.0, "start") };
        for (i, text) in self.word_lines(row).iter().enumerate() {
            page.text(at, y + 4.5 + shift + i as f64 * LINE, Style::of(text.tone).anchored(anchor), &text.words);
        }
    }

    fn note(&self, page: &mut Page, row: &Row, y: f64) {
        page.text(MARGIN, y + 4.5, Style::plain(FAINT).sized(11.0), &row.line.to_string());
        for (i, line) in self.note_lines(row).iter().enumerate() {
            page.text(MARGIN + NUMBERS, y + 4.5 + i as f64 * LINE, Style { italic: true, ..Style::plain("#5a4a1f") }, line);
        }
    }

    fn rule(&self, page: &mut Page, row: &Row, old: bool, y: f64) {
        let (fill, which) = if old { ("#fbeae8", "by the old rule") } else { ("#e8f4ec", "by our rule") };
        let words = if row.note.is_empty() { which.to_string() } else { format!("{which}: {}", row.note) };
        page.rect(MARGIN, y - 14.0, self.right() - MARGIN, 24.0, fill, fill);
        page.put(format_args!("<text x=\"{:.1}\" y=\"{:.1}\" font-size=\"13\" fill=\"{INK}\" style=\"stroke: none\">{}</text>", MARGIN + 10.0, y + 3.0, escaped(&words)));
    }

    /// How each depot stands at the end, and whether they agree.
    fn ending(&self, page: &mut Page, cluster: &Cluster) -> f64 {
        let top = self.rows[self.rows.len() - 1];
        let different = cluster.difference().is_some();
        let cards: Vec<Vec<(Style, String)>> = cluster.depots.iter().enumerate().map(|(i, depot)| card(i + 1, depot, &cluster.depots)).collect();
        let height = cards.iter().map(Vec::len).max().unwrap_or(0) as f64 * LINE + 22.0;
        let width = self.gap - 30.0;
        for (i, card) in cards.iter().enumerate() {
            let x = self.x(i) - width / 2.0;
            page.rect(x, top, width, height, "#ffffff", if different { ALARM } else { GOOD });
            for (k, (style, words)) in card.iter().enumerate() {
                page.text(x + 14.0, top + 22.0 + k as f64 * LINE, *style, words);
            }
        }
        let (colour, y) = (if different { ALARM } else { GOOD }, top + height + 26.0);
        page.text(MARGIN, y, Style::bold(colour).sized(15.0), &show::verdict(cluster));
        y
    }
}

fn card(pid: usize, depot: &Depot, all: &[Depot]) -> Vec<(Style, String)> {
    let charged = Style::bold(INK).sized(16.0);
    let mut lines = vec![(charged, format!("depot {pid} charges {}", tell::days(days(depot))))];
    let decided = depot.decided();
    lines.push((Style::plain(FAINT), if decided.is_empty() { "has decided nothing" } else { "has decided:" }.to_string()));
    let others = |place: usize| all.iter().filter_map(|d| d.decided().get(place)).collect::<BTreeSet<_>>();
    for (place, entry) in decided.iter().enumerate().take(MOST_LISTED) {
        let style = if others(place).len() > 1 { Style::bold(ALARM) } else { Style::plain(INK) };
        lines.push((style, format!("{}. {}", place + 1, tell::entry_in_words(*entry))));
    }
    if decided.len() > MOST_LISTED {
        lines.push((Style::plain(INK), format!("and {} more", decided.len() - MOST_LISTED)));
    }
    let waiting = written(depot).len().saturating_sub(decided.len());
    if waiting > 0 {
        let words = format!("written down, not decided: {}", tell::entries(waiting as u64));
        lines.push((Style::plain(FAINT), words));
    }
    lines
}

fn legend(page: &mut Page, top: f64, kinds: &BTreeSet<usize>) -> f64 {
    let mut y = top;
    page.text(MARGIN, y, Style::bold(INK).sized(15.0), "How to read it");
    let signs = [
        "Time runs downwards. An arrow is a message from the depot that sends it (a square) to the depot where it arrives; a dot is something that happens at a depot.",
        "A red cross: the message is lost. A dashed grey arrow: it arrives and is ignored, nothing changes. A yellow bar: it waits in the sender's queue meanwhile.",
        "A message's number is SESSION.COUNT: 2.1 is the first message of session 2. Numbers in brackets are a ballot: round, priority, depot.",
    ];
    for sign in signs {
        y += 20.0;
        page.text(MARGIN, y, Style::plain(INK), sign);
    }
    y += 8.0;
    for kind in kinds {
        y += 19.0;
        let (name, meaning) = Message::meaning(*kind);
        page.text(MARGIN, y, Style::bold(ARROW), name);
        page.text(MARGIN + 130.0, y, Style::plain(INK), meaning);
    }
    y
}
