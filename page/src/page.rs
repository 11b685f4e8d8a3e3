//! The whole page.

use crate::blocks::{Blocks, Item, Rest};
use crate::markup::{escaped, grouped};
use crate::told::{read, Line};
use crate::{account, chart, fold, kept, legend};
use std::fmt::Write;
use std::io::{self, BufRead};

/// The most arrows that a page has.
pub const ARROWS: usize = 2_000;
/// The most blocks that are looked at for what repeats itself.
const BLOCKS: usize = 20_000;

const STYLE: &str = include_str!("style.css");

/// What the text tells.
struct Told {
    items: Vec<Item>,
    rest: Rest,
    ms: u64,
    requests: Vec<String>,
    report: Vec<String>,
}

/// The page about what `explain` tells of a recording.
pub fn draw(title: &str, text: impl BufRead) -> io::Result<String> {
    Ok(page(title, &told(text)?))
}

fn told(text: impl BufRead) -> io::Result<Told> {
    let mut blocks = Blocks::new(BLOCKS);
    let (mut requests, mut report) = (Vec::new(), Vec::new());
    read(text, |line| match line {
        Line::Record(record) => blocks.record(record),
        Line::Aside(text) => blocks.aside(text),
        Line::Request(line) => requests.push(line),
        Line::Report(line) => report.push(line),
    })?;
    let ms = blocks.last_ms;
    let (items, far) = blocks.end();
    let (items, near) = fold::cut(fold::folded(items), ARROWS);
    Ok(Told { items, rest: near.and(far), ms, requests, report })
}

fn page(title: &str, told: &Told) -> String {
    let title = escaped(title);
    let report = account::report(&told.report);
    let mut out = format!(
        "<!DOCTYPE html>\n<html lang=\"en\">\n<head>\n<meta charset=\"utf-8\" />\n\
         <meta name=\"viewport\" content=\"width=device-width, initial-scale=1\" />\n\
         <title>{title}</title>\n<style>\n{STYLE}</style>\n</head>\n<body>\n<header><h1>{title}</h1>\n{}</header>\n<main>\n",
        facts(told, &report)
    );
    if let Some(bad) = &report.bad {
        let _ = writeln!(
            out,
            "<p class=\"bad\">This is no good recording: <b>{}</b>. What it holds before is drawn below.</p>",
            escaped(bad)
        );
    }
    if !report.cassettes.is_empty() {
        let beside = account::equations(&report.cassettes) + &account::bills(&report.bills);
        let sides =
            format!("<div class=\"sides\">\n{}<div>\n{beside}</div>\n</div>\n", account::balance(&report.cassettes));
        section(&mut out, "The account", &sides);
    }
    if report.bad.is_none() {
        section(&mut out, "The last payouts", &kept::kept(&told.requests));
    }
    section(&mut out, "What happened", &drawing(told));
    let lines: String = told.report.iter().map(|line| escaped(line) + "\n").collect();
    section(&mut out, "The report", &format!("<pre>{lines}</pre>\n"));
    out.push_str("</main>\n</body>\n</html>\n");
    out
}

fn section(out: &mut String, heading: &str, body: &str) {
    let _ = write!(out, "<section>\n<h2>{heading}</h2>\n{body}</section>\n");
}

/// The recording in a line.
fn facts(told: &Told, report: &account::Report) -> String {
    let mut facts = Vec::new();
    facts.extend(report.records.as_ref().map(|n| format!("{} records", escaped(n))));
    facts.extend(report.declined.as_ref().map(|n| format!("{} declined", escaped(n))));
    facts.push(format!("{} ms", grouped(told.ms)));
    let facts: String = facts.iter().map(|fact| format!("<li>{fact}</li>")).collect();
    format!("<ul class=\"facts\">{facts}</ul>\n")
}

fn drawing(told: &Told) -> String {
    if told.items.is_empty() {
        return "<p>Nothing was sent, and nothing came.</p>\n".into();
    }
    let mut out = String::from(
        "<p class=\"hint\">Time runs downwards, and the milliseconds stand beside the host, each with how much later it is than the last. \
         <span class=\"at\">@18</span> is the record's offset. A bar beside the host is an open command, in the colour of its closing.</p>\n",
    );
    out.push_str(&legend::legend(&told.items));
    let _ = write!(out, "<div class=\"chart\">\n{}</div>\n", chart::chart(&told.items));
    out.push_str(&left_out(told.rest));
    out
}

fn left_out(rest: Rest) -> String {
    let Some((ms, at)) = rest.begins else { return String::new() };
    format!(
        "<p class=\"left\">A page has at most {} arrows. {} more are left out here, from {} ms on, offset {at}: \
         <code>--from {at}</code> draws what follows.</p>\n",
        grouped(ARROWS as u64),
        grouped(rest.arrows),
        grouped(ms)
    )
}
