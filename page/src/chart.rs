//! The sequence chart: the host in the middle, the dispenser and the validator at its sides, time downwards. What is said of a block stands in
//! the other half of its row. The chart is in parts of at most a printed page, each an SVG of its own with the three names at its head.

use crate::blocks::{Arrow, Block, Item, Kind, Note, Side};
use crate::look::Look;
use crate::markup::{escaped, grouped, wrapped};
use std::fmt::Write;

const WIDTH: i32 = 500;
const HOST: i32 = WIDTH / 2;
/// Half the width of the bar that shows an open command, and of the host's end of an arrow.
const BAR: i32 = 8;
/// Bytes in a line above an arrow.
const BYTES: usize = 8;
const BYTE_LINE: i32 = 14;
const NOTE_LINE: i32 = 16;
const NOTE_WIDTH: usize = 29;
/// The names at the head of a part.
const HEAD: i32 = 36;
/// A part ends before a new command once it is so high, and in any case before it is higher than a printed page.
const ENOUGH: i32 = 380;
const HIGHEST: i32 = 640;

fn lane(side: Side) -> i32 {
    match side {
        Side::Dispenser => 46,
        Side::Validator => WIDTH - 46,
    }
}

/// 1 where the side is to the right of the host, and -1 where it is to the left.
fn outward(side: Side) -> i32 {
    match side {
        Side::Dispenser => -1,
        Side::Validator => 1,
    }
}

/// The chart's parts, one below the other.
pub fn chart(items: &[Item]) -> String {
    let (parts, places) = laid_out(items);
    let bars = bars(items);
    let mut out = String::new();
    for (number, part) in parts.iter().enumerate() {
        let _ = writeln!(
            out,
            r#"<svg viewBox="0 0 {WIDTH} {height}" role="img" aria-label="sequence chart, part {} of {}">"#,
            number + 1,
            parts.len(),
            height = part.height
        );
        lifelines(&mut out, part.height);
        for bar in &bars {
            bar.draw(&mut out, number, part, &places);
        }
        for index in part.first..part.end {
            draw(&mut out, &items[index], &places[index]);
        }
        out.push_str("</svg>\n");
    }
    out
}

// ---- where everything stands

/// A part: its items, and its height.
struct Part {
    first: usize,
    end: usize,
    height: i32,
}

/// Where an item stands in its part.
struct Place {
    part: usize,
    top: i32,
    height: i32,
    time: Option<Time>,
}

/// When something began, when it was over, and how much later that is than what was drawn before.
struct Time {
    from: u64,
    until: u64,
    later: u64,
}

/// The height of a time above an item.
const TIME: i32 = 30;

impl Place {
    /// Below the time.
    fn body(&self) -> i32 {
        self.top + if self.time.is_some() { TIME } else { 0 }
    }

    fn end(&self) -> i32 {
        self.top + self.height
    }
}

fn laid_out(items: &[Item]) -> (Vec<Part>, Vec<Place>) {
    let mut parts = vec![Part { first: 0, end: 0, height: HEAD }];
    let mut places = Vec::new();
    for (index, (item, time)) in items.iter().zip(times(items)).enumerate() {
        let height = height(item) + if time.is_some() { TIME } else { 0 };
        if is_full(&parts[parts.len() - 1], item, height) {
            parts.push(Part { first: index, end: index, height: HEAD });
        }
        let last = parts.len() - 1;
        let part = &mut parts[last];
        places.push(Place { part: last, top: part.height, height, time });
        part.end = index + 1;
        part.height += height;
    }
    parts.iter_mut().for_each(|part| part.height += 10);
    (parts, places)
}

/// The time above each item, where it is another than before.
fn times(items: &[Item]) -> Vec<Option<Time>> {
    let mut now = 0;
    let mut time = |item: &Item| {
        let before = now;
        match item {
            Item::Block(block) => {
                now = now.max(block.until);
                (block.until > before).then(|| Time {
                    from: block.from,
                    until: block.until,
                    later: block.until - before,
                })
            }
            Item::Repeat { until, .. } => {
                now = now.max(*until);
                None
            }
            Item::Aside(_) => None,
        }
    };
    items.iter().map(&mut time).collect()
}

fn is_full(part: &Part, next: &Item, height: i32) -> bool {
    let opens = matches!(next, Item::Block(block) if block.opens);
    part.end > part.first && (part.height + height > HIGHEST || opens && part.height > ENOUGH)
}

fn height(item: &Item) -> i32 {
    match item {
        Item::Block(block) => {
            let arrows: i32 = block.arrows.iter().map(arrow_height).sum();
            let notes = note_lines(&block.notes).len() as i32 * NOTE_LINE;
            arrows.max(notes).max(NOTE_LINE) + 10
        }
        Item::Repeat { .. } => 40,
        Item::Aside(text) => aside_lines(text).len() as i32 * NOTE_LINE + 26,
    }
}

fn arrow_height(arrow: &Arrow) -> i32 {
    byte_lines(arrow).len() as i32 * BYTE_LINE + 14
}

fn byte_lines(arrow: &Arrow) -> Vec<String> {
    let mut lines: Vec<String> = arrow.bytes.chunks(BYTES).map(|bytes| bytes.join(" ")).collect();
    if arrow.more > 0 {
        lines.push(format!("and {} bytes more", grouped(arrow.more)));
    }
    lines
}

/// Each line with its kind.
fn note_lines(notes: &[Note]) -> Vec<(Kind, String)> {
    notes.iter().flat_map(|note| wrapped(&note.text, NOTE_WIDTH).into_iter().map(|line| (note.kind, line))).collect()
}

fn aside_lines(text: &str) -> Vec<String> {
    wrapped(text, 60)
}

// ---- the bars beside the host, while a command is open

struct Bar {
    side: Side,
    opened: usize,
    closed: Option<usize>,
    look: Look,
}

fn bars(items: &[Item]) -> Vec<Bar> {
    let mut bars: Vec<Bar> = Vec::new();
    let mut open: [Option<usize>; 2] = [None, None];
    for (index, item) in items.iter().enumerate() {
        let Item::Block(block) = item else { continue };
        let slot = &mut open[block.side.index()];
        if block.opens {
            // no session opens two, but a text may say so
            if let Some(before) = slot.replace(bars.len()) {
                bars[before].closed = Some(index - 1);
            }
            bars.push(Bar { side: block.side, opened: index, closed: None, look: Look::Open });
        }
        if let (true, Some(bar)) = (block.closes, *slot) {
            bars[bar].closed = Some(index);
            bars[bar].look = block.mark.unwrap_or(Look::Plain);
            *slot = None;
        }
    }
    bars
}

impl Bar {
    fn draw(&self, out: &mut String, number: usize, part: &Part, places: &[Place]) {
        let (first, last) = (&places[self.opened], self.closed.map(|index| &places[index]));
        if first.part > number || last.is_some_and(|last| last.part < number) {
            return;
        }
        let top = if first.part == number { first.body() + 4 } else { HEAD - 8 };
        let bottom = match last {
            Some(last) if last.part == number => last.end() - 6,
            _ => part.height,
        };
        let x = if self.side == Side::Dispenser { HOST - BAR } else { HOST };
        let _ = writeln!(
            out,
            r#"<rect class="bar {}" x="{x}" y="{top}" width="{BAR}" height="{}" />"#,
            self.look.class(),
            (bottom - top).max(1)
        );
    }
}

// ---- drawing

fn lifelines(out: &mut String, height: i32) {
    for (x, name) in [
        (lane(Side::Dispenser), Side::Dispenser.name()),
        (HOST, "host"),
        (lane(Side::Validator), Side::Validator.name()),
    ] {
        let _ = writeln!(
            out,
            r#"<path class="life" d="M{x} 26 V{height}" /><rect class="name" x="{}" y="4" width="84" height="23" rx="5" /><text class="name" x="{x}" y="20" text-anchor="middle">{name}</text>"#,
            x - 42
        );
    }
}

fn draw(out: &mut String, item: &Item, place: &Place) {
    if let Some(time) = &place.time {
        draw_time(out, place.top, time);
    }
    match item {
        Item::Block(block) => draw_block(out, block, place.body()),
        Item::Repeat { blocks, times, until, .. } => repeat(out, place.top, *blocks, *times, *until),
        Item::Aside(text) => aside(out, place.top, text),
    }
}

fn draw_time(out: &mut String, top: i32, time: &Time) {
    let text = if time.from == time.until {
        format!("{} ms", grouped(time.until))
    } else {
        format!("{} to {} ms", grouped(time.from), grouped(time.until))
    };
    let half = (text.len() as i32 * 7 + 20) / 2;
    let y = top + 6;
    let _ = writeln!(
        out,
        r#"<rect class="time" x="{}" y="{y}" width="{}" height="18" rx="9" /><text class="time" x="{HOST}" y="{}" text-anchor="middle">{text}</text><text class="later" x="{}" y="{}">+{}</text>"#,
        HOST - half,
        2 * half,
        y + 13,
        HOST + half + 5,
        y + 13,
        grouped(time.later)
    );
}

fn draw_block(out: &mut String, block: &Block, top: i32) {
    let (side, device) = (block.side, lane(block.side));
    let _ = writeln!(
        out,
        r#"<text class="at" x="{}" y="{}" text-anchor="middle"{}>@{}</text>"#,
        device + outward(side) * 23,
        top + 12,
        if block.at > 999_999 { r#" textLength="42" lengthAdjust="spacingAndGlyphs""# } else { "" },
        block.at
    );
    let mut y = top;
    let mut marked = top + 8;
    for (index, arrow) in block.arrows.iter().enumerate() {
        y += arrow_height(arrow);
        draw_arrow(out, side, arrow, y - 7);
        if index == 0 {
            marked = y - 7;
        }
    }
    if let Some(look) = block.mark {
        out.push_str(&look.mark(HOST, marked));
        out.push('\n');
    }
    notes(out, block, top);
}

/// Its bytes stand above it.
fn draw_arrow(out: &mut String, side: Side, arrow: &Arrow, y: i32) {
    let way = outward(side);
    let (device, host) = (lane(side) - 2 * way, HOST + (BAR + 2) * way);
    let (start, end) = if arrow.to_host { (device, host) } else { (host, device) };
    let back = if end > start { -7 } else { 7 };
    let class = arrow.look.class();
    let _ = writeln!(
        out,
        r#"<path class="arrow {class}" d="M{start} {y} H{}" /><path class="head {class}" d="M{end} {y} l{back} -4 v8z" />"#,
        end + back
    );
    let lines = byte_lines(arrow);
    let middle = (device + host) / 2;
    let (x, anchor) = if lines.len() > 1 { (middle - 85, "start") } else { (middle, "middle") };
    for (index, line) in lines.iter().enumerate() {
        let above = (lines.len() - index) as i32 * BYTE_LINE - 8;
        let _ = writeln!(
            out,
            r#"<text class="bytes {class}" x="{x}" y="{}" text-anchor="{anchor}">{}</text>"#,
            y - above,
            escaped(line)
        );
    }
}

fn notes(out: &mut String, block: &Block, top: i32) {
    let away = -outward(block.side);
    let x = HOST + 16 * away;
    let anchor = if away > 0 { "start" } else { "end" };
    for (index, (kind, line)) in note_lines(&block.notes).into_iter().enumerate() {
        let class = match kind {
            Kind::Heading => "heading",
            Kind::Mark(look) => look.class(),
            Kind::Plain => "said",
            Kind::Faint => "faint",
        };
        let y = top + 12 + index as i32 * NOTE_LINE;
        let _ = writeln!(
            out,
            r#"<text class="note {class}" x="{x}" y="{y}" text-anchor="{anchor}">{}</text>"#,
            escaped(&line)
        );
    }
}

fn repeat(out: &mut String, top: i32, blocks: usize, times: u64, until: u64) {
    let what = if blocks == 1 { "this step".into() } else { format!("these {blocks} steps") };
    let text = format!("{what} {} times more, until {} ms", grouped(times), grouped(until));
    band(out, "repeat", top + 8, &[text]);
}

fn aside(out: &mut String, top: i32, text: &str) {
    band(out, "aside", top + 8, &aside_lines(text));
}

/// Lines over the whole width.
fn band(out: &mut String, class: &str, top: i32, lines: &[String]) {
    let longest = lines.iter().map(|line| line.chars().count()).max().unwrap_or(0) as i32;
    let half = (longest * 3 + 16).min(HOST - 4);
    let _ = writeln!(
        out,
        r#"<rect class="{class}" x="{}" y="{top}" width="{}" height="{}" rx="6" />"#,
        HOST - half,
        2 * half,
        lines.len() as i32 * NOTE_LINE + 9
    );
    for (index, line) in lines.iter().enumerate() {
        let y = top + 16 + index as i32 * NOTE_LINE;
        let _ =
            writeln!(out, r#"<text class="{class}" x="{HOST}" y="{y}" text-anchor="middle">{}</text>"#, escaped(line));
    }
}
