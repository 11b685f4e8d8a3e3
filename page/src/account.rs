//! The report's sums as tables: each cassette with its balance, and the bills.

use crate::markup::{escaped, grouped};
use std::fmt::Write;

/// A cassette's line of the report.
#[derive(Clone, Debug, Default, PartialEq, Eq)]
pub struct Cassette {
    pub name: String,
    pub sums: Vec<(String, u64)>,
    pub last_error: String,
}

impl Cassette {
    fn sum(&self, name: &str) -> u64 {
        self.sums.iter().find(|(of, _)| of == name).map_or(0, |&(_, sum)| sum)
    }

    fn total(&self, terms: &[Term]) -> u64 {
        terms.iter().fold(0, |total, term| total.saturating_add(self.sum(term.name)))
    }
}

/// What the page takes from a report.
#[derive(Clone, Debug, Default, PartialEq, Eq)]
pub struct Report {
    pub cassettes: Vec<Cassette>,
    /// Each type, how many bills, and what they are worth.
    pub bills: Vec<(String, String, String)>,
    pub declined: Option<String>,
    pub records: Option<String>,
    pub bad: Option<String>,
}

pub fn report(lines: &[String]) -> Report {
    let mut report = Report::default();
    for line in lines {
        let words: Vec<&str> = line.split_whitespace().collect();
        match words[..] {
            ["bad", ..] => report.bad = Some(line.clone()),
            ["declined", n] => report.declined = Some(n.into()),
            ["records", n] => report.records = Some(n.into()),
            ["type", bill, "bills", n] => report.bills.push((bill.into(), n.into(), String::new())),
            ["value", total, letters, places] => {
                if let Some(bill) = report.bills.last_mut() {
                    bill.2 = format!("{} {letters}", with_places(total, places.parse().unwrap_or(0)));
                }
            }
            [name, "last", "error", ref class @ ..] => {
                if let Some(cassette) = report.cassettes.iter_mut().find(|cassette| cassette.name == name) {
                    cassette.last_error = class.join(" ");
                }
            }
            [name, "asked", ..] => report.cassettes.extend(cassette(name, &words[1..])),
            _ => {}
        }
    }
    report
}

fn cassette(name: &str, words: &[&str]) -> Option<Cassette> {
    let sum = |pair: &[&str]| Some((pair.first()?.to_string(), pair.get(1)?.parse().ok()?));
    let sums = words.chunks(2).map(sum).collect::<Option<Vec<_>>>()?;
    Some(Cassette { name: name.into(), sums, last_error: String::new() })
}

/// 2500 with two places as `25.00`.
fn with_places(total: &str, places: usize) -> String {
    if places == 0 {
        return total.into();
    }
    let digits = format!("{total:0>width$}", width = places + 1);
    let (whole, part) = digits.split_at(digits.len() - places);
    format!("{whole}.{part}")
}

/// A sum of the balance, and its colour.
struct Term {
    name: &'static str,
    class: &'static str,
}

const ASKED: [Term; 2] = [Term { name: "asked", class: "" }, Term { name: "over", class: "" }];
const GONE: [Term; 5] = [
    Term { name: "paid", class: "answered" },
    Term { name: "short", class: "damaged" },
    Term { name: "refused", class: "refused" },
    Term { name: "unknown", class: "unknown" },
    Term { name: "open", class: "open" },
];

/// A column for each cassette: asked and over together are paid, short, refused, unknown and open together.
pub fn balance(cassettes: &[Cassette]) -> String {
    let mut out = String::from("<div class=\"scroll\"><table class=\"account\">\n<thead><tr><th></th>");
    for cassette in cassettes {
        let _ = write!(out, "<th class=\"n\">{}</th>", escaped(&cassette.name));
    }
    out.push_str("</tr></thead>\n<tbody>\n");
    terms(&mut out, cassettes, &ASKED);
    terms(&mut out, cassettes, &GONE);
    row(&mut out, "balance", "balance", cassettes, |one| verdict(one.total(&ASKED), one.total(&GONE)));
    row(&mut out, "apart", "rejected", cassettes, |one| grouped(one.sum("rejected")));
    if cassettes.iter().any(|one| !one.last_error.is_empty()) {
        row(&mut out, "", "last error", cassettes, |one| escaped(&one.last_error));
    }
    out.push_str("</tbody></table></div>\n");
    out
}

/// Each cassette's sums in a line, with a bar.
pub fn equations(cassettes: &[Cassette]) -> String {
    let mut out = String::new();
    cassettes.iter().for_each(|one| equation(&mut out, one));
    out
}

fn terms(out: &mut String, cassettes: &[Cassette], terms: &[Term]) {
    for (index, term) in terms.iter().enumerate() {
        let chip = if term.class.is_empty() { String::new() } else { format!("<i class=\"chip {}\"></i>", term.class) };
        let sign = if index == 0 { "" } else { "+ " };
        row(out, "", &format!("{chip}{sign}{}", term.name), cassettes, |one| grouped(one.sum(term.name)));
    }
    row(out, "sum", "= together", cassettes, |one| grouped(one.total(terms)));
}

fn row(out: &mut String, class: &str, name: &str, cassettes: &[Cassette], cell: impl Fn(&Cassette) -> String) {
    let _ = write!(out, "<tr class=\"{class}\"><th>{name}</th>");
    for cassette in cassettes {
        let _ = write!(out, "<td class=\"n\">{}</td>", cell(cassette));
    }
    out.push_str("</tr>\n");
}

fn verdict(asked: u64, gone: u64) -> String {
    if asked == gone {
        format!("<b class=\"answered\">{} = {} ✓</b>", grouped(asked), grouped(gone))
    } else {
        format!("<b class=\"refused\">{} ≠ {} ✗</b>", grouped(asked), grouped(gone))
    }
}

/// The sums in one line, and a bar with a stretch for each place where notes are.
fn equation(out: &mut String, cassette: &Cassette) {
    let total = cassette.total(&GONE);
    if total == 0 {
        return;
    }
    let list = |terms: &[Term]| {
        terms.iter().map(|term| format!("{} {}", cassette.sum(term.name), term.name)).collect::<Vec<_>>()
    };
    let _ = writeln!(
        out,
        "<p class=\"equation\"><b>{}</b>: {} = {}</p>",
        escaped(&cassette.name),
        list(&ASKED).join(" + "),
        list(&GONE).join(" + ")
    );
    out.push_str("<svg class=\"stretch\" viewBox=\"0 0 1000 10\" preserveAspectRatio=\"none\" role=\"img\" aria-label=\"where the notes are\">");
    let mut before: u64 = 0;
    for term in &GONE {
        let notes = cassette.sum(term.name);
        if notes > 0 {
            let at = |notes: u64| notes as f64 * 1000.0 / total as f64;
            let _ = write!(
                out,
                r#"<rect class="bar {}" x="{:.1}" y="0" width="{:.1}" height="10" />"#,
                term.class,
                at(before),
                at(notes)
            );
        }
        before = before.saturating_add(notes);
    }
    out.push_str("</svg>\n");
}

/// A row for each type of which a bill was taken in.
pub fn bills(bills: &[(String, String, String)]) -> String {
    if bills.is_empty() {
        return String::new();
    }
    let mut out = String::from(
        "<table class=\"bills\">\n<thead><tr><th>bill type</th><th class=\"n\">bills</th><th class=\"n\">value</th></tr></thead>\n<tbody>\n",
    );
    for (bill, n, value) in bills {
        let _ = writeln!(
            out,
            "<tr><td>{}</td><td class=\"n\">{}</td><td class=\"n\">{}</td></tr>",
            escaped(bill),
            escaped(n),
            escaped(value)
        );
    }
    out.push_str("</tbody></table>\n");
    out
}

#[cfg(test)]
mod tests {
    use super::*;

    fn lines(text: &str) -> Vec<String> {
        text.lines().map(String::from).collect()
    }

    const UPPER: &str = "upper asked 32 paid 20 short 0 over 1 refused 5 unknown 7 open 1 rejected 0";

    #[test]
    fn every_line_of_a_report() {
        let text = format!("{UPPER}\nupper last error out of notes\ndeclined 2\ntype 3 bills 2\nvalue 2500 NLC 2\ntype 4 bills 1\nrecords 354");
        let read = report(&lines(&text));
        assert_eq!(read.cassettes.len(), 1);
        assert_eq!(read.cassettes[0].sum("unknown"), 7);
        assert_eq!(read.cassettes[0].last_error, "out of notes");
        assert_eq!(read.declined.as_deref(), Some("2"));
        assert_eq!(read.records.as_deref(), Some("354"));
        assert_eq!(read.bills[0], ("3".into(), "2".into(), "25.00 NLC".into()));
        assert_eq!(read.bills[1].2, "");
        assert_eq!(report(&lines("bad 22 at 7")).bad.as_deref(), Some("bad 22 at 7"));
        assert_eq!(report(&lines("upper asked x")), Report::default());
    }

    #[test]
    fn the_balance_is_reckoned_here() {
        let mut read = report(&lines(UPPER));
        assert!(balance(&read.cassettes).contains("33 = 33 ✓"));
        read.cassettes[0].sums[0].1 += 1;
        assert!(balance(&read.cassettes).contains("34 ≠ 33 ✗"));
    }

    #[test]
    fn places() {
        assert_eq!(with_places("2500", 2), "25.00");
        assert_eq!(with_places("5", 2), "0.05");
        assert_eq!(with_places("20", 0), "20");
    }
}
