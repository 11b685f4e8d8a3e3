//! What the shapes and colours of the chart mean: of those that it has.

use crate::blocks::Item;
use crate::look::Look;
use std::fmt::Write;

const ALL: [(Look, &str); 12] = [
    (Look::Command, "a command of the host"),
    (Look::Understood, "understood: 06h, ACK"),
    (Look::Plain, "bytes that closed nothing"),
    (Look::Answered, "answered"),
    (Look::Acknowledged, "acknowledged"),
    (Look::Refused, "refused by the unit"),
    (Look::Unknown, "closed as unknown"),
    (Look::Damaged, "damaged, or bad: asked for again"),
    (Look::Silent, "silent: nothing came"),
    (Look::Open, "still open"),
    (Look::Stray, "skipped or ignored"),
    (Look::Declined, "refused by the host: it did nothing"),
];

/// A list of the looks that these items have.
pub fn legend(items: &[Item]) -> String {
    let mut out = String::from("<ul class=\"legend\">\n");
    let seen = seen(items);
    for (look, meaning) in ALL.into_iter().filter(|(look, _)| seen.contains(look)) {
        let _ = writeln!(out, "<li>{}<span>{meaning}</span></li>", sample(look));
    }
    out.push_str("</ul>\n");
    out
}

fn seen(items: &[Item]) -> Vec<Look> {
    let mut seen = Vec::new();
    let mut open = [false; 2];
    for item in items {
        let Item::Block(block) = item else { continue };
        seen.extend(block.arrows.iter().map(|arrow| arrow.look).chain(block.mark));
        let open = &mut open[block.side.index()];
        *open = (*open || block.opens) && !block.closes;
    }
    if open.contains(&true) {
        seen.push(Look::Open);
    }
    seen
}

fn sample(look: Look) -> String {
    let class = look.class();
    let mark = look.mark(35, 11);
    let line = match look {
        Look::Open => format!(r#"<rect class="bar {class}" x="18" y="1" width="8" height="20" />"#),
        Look::Declined => {
            return format!(r#"<svg viewBox="0 0 46 22" width="46" height="22">{}</svg>"#, look.mark(23, 11))
        }
        _ if mark.is_empty() => {
            format!(
                r#"<path class="arrow {class}" d="M2 11 H37" /><path class="head {class}" d="M44 11 l-7 -4 v8z" />"#
            )
        }
        _ => format!(r#"<path class="arrow {class}" d="M2 11 H27" />"#),
    };
    format!(r#"<svg viewBox="0 0 46 22" width="46" height="22">{line}{mark}</svg>"#)
}
