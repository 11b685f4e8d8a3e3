//! From records to what is drawn: a block for each thing that happened on one of the two lines, with its arrows and its notes. The bytes of
//! one answer are one arrow, also where time passes between them.

use crate::look::Look;
use crate::told::Record;

#[derive(Clone, Copy, Debug, PartialEq, Eq)]
pub enum Side {
    Dispenser,
    Validator,
}

impl Side {
    pub const BOTH: [Side; 2] = [Side::Dispenser, Side::Validator];

    pub fn name(self) -> &'static str {
        match self {
            Side::Dispenser => "dispenser",
            Side::Validator => "validator",
        }
    }

    pub fn index(self) -> usize {
        self as usize
    }
}

#[derive(Clone, Debug, PartialEq, Eq)]
pub struct Arrow {
    pub to_host: bool,
    /// In hex, two digits each: the first of them, at most as many as the longest frame has, and how many there are beside.
    pub bytes: Vec<String>,
    pub more: u64,
    pub look: Look,
}

/// The most bytes that are shown of one arrow: the longest frame has 255.
const MOST_BYTES: usize = 256;

impl Arrow {
    fn new(to_host: bool, look: Look) -> Arrow {
        Arrow { to_host, bytes: Vec::new(), more: 0, look }
    }

    /// Bytes as they stand in a text: `04 50`, or `06h`.
    fn add(&mut self, bytes: &str) {
        for byte in bytes.split_whitespace() {
            if self.bytes.len() < MOST_BYTES {
                self.bytes.push(byte.trim_end_matches('h').into());
            } else {
                self.more += 1;
            }
        }
    }
}

#[derive(Clone, Copy, Debug, PartialEq, Eq)]
pub enum Kind {
    /// What was asked.
    Heading,
    /// How it closed, or that it was refused.
    Mark(Look),
    Plain,
    /// Waits, and bytes that do not count.
    Faint,
}

#[derive(Clone, Debug, PartialEq, Eq)]
pub struct Note {
    pub kind: Kind,
    pub text: String,
}

#[derive(Clone, Debug)]
pub struct Block {
    /// When it began and when it was over.
    pub from: u64,
    pub until: u64,
    pub at: u64,
    pub side: Side,
    pub arrows: Vec<Arrow>,
    pub notes: Vec<Note>,
    /// How a command closed, or that a call was refused.
    pub mark: Option<Look>,
    /// A command was opened.
    pub opens: bool,
    /// A command was closed.
    pub closes: bool,
}

impl Block {
    fn new(side: Side, record: &Record) -> Block {
        Block {
            from: record.ms,
            until: record.ms,
            at: record.at,
            side,
            arrows: Vec::new(),
            notes: Vec::new(),
            mark: None,
            opens: false,
            closes: false,
        }
    }

    /// Whether the two differ in time and place alone.
    pub fn alike(&self, other: &Block) -> bool {
        self.side == other.side
            && self.mark == other.mark
            && self.opens == other.opens
            && self.closes == other.closes
            && self.arrows == other.arrows
            && self.notes == other.notes
    }

    fn note(&mut self, kind: Kind, text: &str) {
        let note = Note { kind, text: text.into() };
        if !self.notes.contains(&note) {
            self.notes.push(note);
        }
    }

    fn part(&mut self, part: &str) {
        let own = part.strip_prefix(self.side.name()).map_or(part, str::trim_start);
        match own.split_once(' ').unwrap_or((own, "")) {
            ("sends", bytes) => self.arrows.push(sent(bytes)),
            ("closed", how) => {
                let look = Look::of_closing(how);
                self.mark = Some(look);
                self.closes = true;
                self.note(Kind::Mark(look), how);
            }
            ("refused", _) => {
                self.mark = Some(Look::Declined);
                self.note(Kind::Mark(Look::Declined), own);
            }
            ("gathered", _) => {}
            ("skipped" | "ignored" | "waits" | "waited", _) => self.note(Kind::Faint, own),
            ("answer", fields) => self.note(Kind::Plain, fields),
            _ => self.note(Kind::Plain, own),
        }
    }

    /// What came is coloured by what became of it; what closed or refused it is the first that is said.
    fn finish(&mut self) {
        let sent = self.arrows.iter().rev().find(|arrow| !arrow.to_host).map(|arrow| arrow.look);
        let (mark, stray) = (self.mark.filter(|_| self.closes), self.is_stray());
        if let Some(came) = self.arrows.first_mut().filter(|arrow| arrow.to_host) {
            came.look = match (mark, sent) {
                (Some(look), _) => look,
                _ if stray => Look::Stray,
                (None, Some(Look::Damaged)) => Look::Damaged,
                (None, Some(Look::Command)) => Look::Refused,
                _ if came.bytes == ["06"] => Look::Understood,
                _ => Look::Plain,
            };
        }
        self.notes.sort_by_key(|note| match note.kind {
            Kind::Heading => 0,
            Kind::Mark(_) => 1,
            Kind::Plain => 2,
            Kind::Faint => 3,
        });
    }

    fn is_stray(&self) -> bool {
        self.notes.iter().any(|note| is_stray(&note.text))
    }
}

fn is_stray(part: &str) -> bool {
    part.starts_with("skipped") || part.starts_with("ignored")
}

/// An arrow of the host's: 06h and the ACK frame say that something was understood, 15h and the NAK frame that it was not.
fn sent(bytes: &str) -> Arrow {
    let look = match bytes {
        "06" | "02 03 06 00 C2 82" => Look::Understood,
        "15" | "02 03 06 FF BA 8D" => Look::Damaged,
        _ => Look::Command,
    };
    let mut arrow = Arrow::new(false, look);
    arrow.add(bytes);
    arrow
}

/// What is drawn below the last: a block, or a line of its own over the whole width.
#[derive(Clone, Debug)]
pub enum Item {
    Block(Block),
    /// The last so many blocks came so many times more, at last at this time.
    Repeat {
        blocks: usize,
        times: u64,
        arrows: u64,
        until: u64,
    },
    Aside(String),
}

impl Item {
    /// How many arrows of the recording it stands for.
    pub fn arrows(&self) -> u64 {
        match self {
            Item::Block(block) => block.arrows.len() as u64,
            Item::Repeat { arrows, .. } => *arrows,
            Item::Aside(_) => 0,
        }
    }
}

/// Bytes of one line that came one after the other, until it shows what they are.
struct Coming {
    block: Block,
    stray: bool,
}

/// Strays further apart than this are arrows of their own.
const APART: u64 = 200;

/// Makes blocks of records. It keeps the first `most`, and of the others how many arrows they have.
pub struct Blocks {
    most: usize,
    items: Vec<Item>,
    coming: [Option<Coming>; 2],
    rest: Rest,
    pub last_ms: u64,
}

impl Blocks {
    pub fn new(most: usize) -> Blocks {
        Blocks { most, items: Vec::new(), coming: [None, None], rest: Rest::default(), last_ms: 0 }
    }

    pub fn record(&mut self, mut record: Record) {
        record.ms = record.ms.saturating_add(passed(&record));
        self.last_ms = self.last_ms.max(record.ms);
        let (first, rest) = record.words.split_once(' ').unwrap_or((&record.words, ""));
        match first {
            "tick" => self.tick(&record),
            "dispenser" => self.bytes(Side::Dispenser, rest, &record),
            "validator" => self.bytes(Side::Validator, rest, &record),
            "request" => self.asked(Side::Dispenser, rest, &record),
            "clear" => self.asked(Side::Dispenser, first, &record),
            _ => self.asked(Side::Validator, &record.words, &record),
        }
    }

    pub fn aside(&mut self, text: String) {
        self.flush_all();
        self.push(Item::Aside(text));
    }

    /// What was kept, and what was not.
    pub fn end(mut self) -> (Vec<Item>, Rest) {
        self.flush_all();
        (self.items, self.rest)
    }

    fn asked(&mut self, side: Side, what: &str, record: &Record) {
        self.flush(side);
        let mut block = Block::new(side, record);
        block.note(Kind::Heading, what);
        for part in &record.parts {
            block.part(part);
        }
        // whatever a request puts is its command, also where its bytes are those of a reply
        for arrow in &mut block.arrows {
            arrow.look = Look::Command;
        }
        block.opens = !block.arrows.is_empty() && !block.closes;
        self.put(block);
    }

    fn tick(&mut self, record: &Record) {
        for side in Side::BOTH {
            let parts: Vec<&String> = record.parts.iter().filter(|part| of_tick(part) == side).collect();
            if parts.is_empty() {
                continue;
            }
            self.flush(side);
            let mut block = Block::new(side, record);
            for part in parts {
                block.part(part);
            }
            self.put(block);
        }
    }

    fn bytes(&mut self, side: Side, bytes: &str, record: &Record) {
        let stray = record.parts.iter().any(|part| is_stray(part));
        let over = !stray && !record.parts.iter().any(|part| part.starts_with("gathered "))
            || record.parts.iter().any(|part| part.contains("sends ") || part.contains("closed "));
        let mut coming = match self.coming[side.index()].take() {
            Some(coming)
                if coming.stray == stray && (!stray || record.ms.saturating_sub(coming.block.until) < APART) =>
            {
                coming
            }
            other => {
                self.put_coming(other);
                let mut block = Block::new(side, record);
                block.arrows.push(Arrow::new(true, Look::Plain));
                Coming { block, stray }
            }
        };
        coming.block.until = coming.block.until.max(record.ms);
        // what was awaited at an earlier byte has come
        coming.block.notes.retain(|note| !note.text.starts_with("waits "));
        coming.block.arrows[0].add(bytes);
        for part in &record.parts {
            coming.block.part(part);
        }
        if over {
            self.put(coming.block);
        } else {
            self.coming[side.index()] = Some(coming);
        }
    }

    fn put_coming(&mut self, coming: Option<Coming>) {
        if let Some(coming) = coming {
            self.put(coming.block);
        }
    }

    fn flush(&mut self, side: Side) {
        let coming = self.coming[side.index()].take();
        self.put_coming(coming);
    }

    fn flush_all(&mut self) {
        Side::BOTH.into_iter().for_each(|side| self.flush(side));
    }

    /// Strays came before the block, and are over with it.
    fn put(&mut self, block: Block) {
        for side in Side::BOTH {
            match self.coming[side.index()].take() {
                Some(coming) if coming.stray => self.push_block(coming.block),
                coming => self.coming[side.index()] = coming,
            }
        }
        self.push_block(block);
    }

    fn push_block(&mut self, mut block: Block) {
        block.finish();
        self.push(Item::Block(block));
    }

    fn push(&mut self, item: Item) {
        if self.items.len() < self.most {
            self.items.push(item);
        } else {
            self.rest.add(&item);
        }
    }
}

/// A record stands at the time before it. What a tick did is drawn behind it: these are its milliseconds, `tick 1000 x5`. One that is refused passes none.
fn passed(record: &Record) -> u64 {
    let number = |text: &str| text.parse::<u32>().map(u64::from).ok();
    let ticks = match record.words.split_whitespace().collect::<Vec<_>>()[..] {
        ["tick", ms] => number(ms),
        ["tick", ms, times] => times.strip_prefix('x').and_then(number).zip(number(ms)).map(|(times, ms)| ms * times),
        _ => None,
    };
    ticks.filter(|_| !record.parts.iter().any(|part| part.contains("refused "))).unwrap_or(0)
}

/// The line that a part of a tick is about. A tick that is refused is refused alike on both.
fn of_tick(part: &str) -> Side {
    if part.starts_with(Side::Validator.name()) {
        Side::Validator
    } else {
        Side::Dispenser
    }
}

/// What is not drawn: how many arrows, and where it begins.
#[derive(Clone, Copy, Debug, Default, PartialEq, Eq)]
pub struct Rest {
    pub arrows: u64,
    pub begins: Option<(u64, u64)>,
}

impl Rest {
    pub fn add(&mut self, item: &Item) {
        self.arrows += item.arrows();
        if let (None, Item::Block(block)) = (self.begins, item) {
            self.begins = Some((block.from, block.at));
        }
    }

    /// What is left out where `later` is left out as well.
    pub fn and(self, later: Rest) -> Rest {
        Rest { arrows: self.arrows + later.arrows, begins: self.begins.or(later.begins) }
    }
}

#[cfg(test)]
mod tests {
    use super::*;
    use crate::told::{read, Line};

    fn items(text: &str, most: usize) -> (Vec<Item>, Rest) {
        let mut blocks = Blocks::new(most);
        read(text.as_bytes(), |line| match line {
            Line::Record(record) => blocks.record(record),
            Line::Aside(text) => blocks.aside(text),
            _ => {}
        })
        .unwrap();
        blocks.end()
    }

    /// Each block in a line: its side, its arrows with their looks, its notes.
    fn told(text: &str) -> Vec<String> {
        let arrow = |arrow: &Arrow| {
            format!("{}{} {}", if arrow.to_host { ">" } else { "<" }, arrow.bytes.join(" "), arrow.look.class())
        };
        let block = |block: &Block| {
            let arrows: Vec<_> = block.arrows.iter().map(arrow).collect();
            let notes: Vec<_> = block.notes.iter().map(|note| note.text.as_str()).collect();
            format!(
                "{}..{} {} [{}] {}",
                block.from,
                block.until,
                block.side.name(),
                arrows.join(", "),
                notes.join(", ")
            )
        };
        let one = |item: &Item| match item {
            Item::Block(one) => block(one),
            Item::Aside(text) => text.clone(),
            Item::Repeat { .. } => unreachable!(),
        };
        items(text, 100).0.iter().map(one).collect()
    }

    #[test]
    fn the_bytes_of_an_answer_are_one_arrow() {
        let text = "5200 ms @18 request status | dispenser sends 04 50 02 46 03 13\n\
                    5201 ms @22 dispenser 06h | dispenser waits 90,000 ms\n\
                    5202 ms @24 dispenser 01h | dispenser waited 1 of 90,000 ms; dispenser waits 200 ms; gathered 1 of 3\n\
                    5203 ms @26 tick 1\n\
                    5203 ms @28 poll | validator sends 02 03 06 33 DA 81\n\
                    5204 ms @30 dispenser 50h | gathered 2 of 3\n\
                    5204 ms @32 dispenser 02h | dispenser sends 06; dispenser closed answered; answer error 30h fine; dispenser waits 5,200 ms\n";
        let wanted = [
            "5200..5200 dispenser [<04 50 02 46 03 13 command] status",
            "5201..5201 dispenser [>06 understood] waits 90,000 ms",
            "5203..5203 validator [<02 03 06 33 DA 81 command] poll",
            "5202..5204 dispenser [>01 50 02 answered, <06 understood] answered, error 30h fine, waited 1 of 90,000 ms, waits 5,200 ms",
        ];
        assert_eq!(told(text), wanted);
    }

    #[test]
    fn a_late_answer_ends_before_the_tick() {
        let text = "1 ms @0 dispenser 01h | gathered 1 of 3\n\
                    1 ms @2 tick 200 | dispenser sends 15; dispenser waits 5,050 ms\n\
                    202 ms @4 dispenser 41h 42h | skipped\n";
        let wanted = [
            "1..1 dispenser [>01 plain] ",
            "201..201 dispenser [<15 damaged] waits 5,050 ms",
            "202..202 dispenser [>41 42 stray] skipped",
        ];
        assert_eq!(told(text), wanted);
    }

    #[test]
    fn what_came_is_coloured_by_what_became_of_it() {
        let first = |text: &str| {
            items(text, 9).0.into_iter().find_map(|item| match item {
                Item::Block(block) => Some(block.arrows[0].look),
                _ => None,
            })
        };
        for (parts, look) in [
            ("dispenser sends 04 50 02 46 03 13", Look::Refused),
            ("dispenser closed refused", Look::Refused),
            ("dispenser closed unknown", Look::Unknown),
            ("dispenser sends 15; dispenser waits 5,050 ms", Look::Damaged),
            ("ignored", Look::Stray),
            ("", Look::Plain),
        ] {
            assert_eq!(first(&format!("1 ms @0 dispenser 15h | {parts}\n")), Some(look), "{parts}");
        }
    }

    #[test]
    fn a_tick_closes_on_each_line() {
        let text = "0 ms @0 tick 10 | dispenser closed unknown; booked upper unknown 10; validator closed silent\n";
        let wanted = ["10..10 dispenser [] unknown, booked upper unknown 10", "10..10 validator [] silent"];
        assert_eq!(told(text), wanted);
    }

    #[test]
    fn what_a_tick_did_is_drawn_behind_it() {
        let told = |words: &str, part: &str| told(&format!("7 ms @0 {words} | {part}\n"));
        assert_eq!(told("tick 1000", "dispenser closed unknown"), ["1007..1007 dispenser [] unknown"]);
        assert_eq!(told("tick 1000 x5", "dispenser closed unknown"), ["5007..5007 dispenser [] unknown"]);
        assert_eq!(
            told("tick 0", "refused 6: a tick is 1 to 1,000 ms"),
            ["7..7 dispenser [] refused 6: a tick is 1 to 1,000 ms"]
        );
        assert_eq!(told("tick 4294967295", "refused 6: no"), ["7..7 dispenser [] refused 6: no"]);
    }

    #[test]
    fn strays_that_are_far_apart_are_two() {
        let text =
            "1 ms @0 validator 41h | ignored\n2 ms @2 validator 42h | ignored\n900 ms @4 validator 43h | ignored\n";
        assert_eq!(told(text).len(), 2);
    }

    #[test]
    fn what_a_refused_request_says() {
        let text = "3200 ms @9 request pay upper 10 | refused 4: quiet for 3,200 of 5,200 ms\nbad 22 at 12: 01\n";
        let wanted =
            ["3200..3200 dispenser [] pay upper 10, refused 4: quiet for 3,200 of 5,200 ms", "bad 22 at 12: 01"];
        assert_eq!(told(text), wanted);
    }

    #[test]
    fn what_is_not_kept_is_counted() {
        let text =
            "1 ms @0 poll | validator sends 02\n2 ms @2 poll | validator sends 02\n3 ms @4 poll | validator sends 02\n";
        let (items, rest) = items(text, 1);
        assert_eq!((items.len(), rest), (1, Rest { arrows: 2, begins: Some((2, 2)) }));
    }
}
