//! What arrows and closings look like. Each has a colour of a palette that colour-blind people can tell apart (Okabe and Ito's, darkened
//! for text on white), and each closing a shape of its own, so that a page printed in grey can be read as well.

/// How something is drawn.
#[derive(Clone, Copy, Debug, PartialEq, Eq)]
pub enum Look {
    /// A command of the host's.
    Command,
    /// 06h or an ACK frame, of either end.
    Understood,
    /// Bytes that close nothing.
    Plain,
    Answered,
    Acknowledged,
    Refused,
    Unknown,
    Damaged,
    Silent,
    /// Bytes that were skipped or ignored.
    Stray,
    /// A call that the session refused.
    Declined,
    /// A command that was not closed.
    Open,
}

impl Look {
    /// Its class in the page's style.
    pub fn class(self) -> &'static str {
        match self {
            Look::Command => "command",
            Look::Understood => "understood",
            Look::Plain => "plain",
            Look::Answered => "answered",
            Look::Acknowledged => "acknowledged",
            Look::Refused => "refused",
            Look::Unknown => "unknown",
            Look::Damaged => "damaged",
            Look::Silent => "silent",
            Look::Stray => "stray",
            Look::Declined => "declined",
            Look::Open => "open",
        }
    }

    /// That of a closing in the words of `explain`.
    pub fn of_closing(closing: &str) -> Look {
        match closing.split_whitespace().next().unwrap_or_default() {
            "answered" => Look::Answered,
            "acknowledged" => Look::Acknowledged,
            "refused" | "illegal" => Look::Refused,
            "unknown" => Look::Unknown,
            "damaged" => Look::Damaged,
            "silent" => Look::Silent,
            "open" => Look::Open,
            _ => Look::Plain,
        }
    }

    /// The mark of a closing, or of a refused call, around a point.
    pub fn mark(self, x: i32, y: i32) -> String {
        let class = self.class();
        let shape = match self {
            Look::Answered | Look::Acknowledged => format!(r#"<circle cx="{x}" cy="{y}" r="8" />"#),
            Look::Refused | Look::Declined => {
                format!(r#"<rect x="{}" y="{}" width="14" height="14" rx="2" />"#, x - 7, y - 7)
            }
            Look::Unknown | Look::Silent => {
                format!(r#"<path d="M{x} {} l9.5 9.5 -9.5 9.5 -9.5 -9.5z" />"#, f64::from(y) - 9.5)
            }
            Look::Damaged => format!(r#"<path d="M{x} {} l9.5 16 h-19z" />"#, y - 10),
            _ => return String::new(),
        };
        let sign = match self {
            Look::Answered => tick(x, y),
            Look::Acknowledged => format!(r#"<circle class="sign dot" cx="{x}" cy="{y}" r="2.5" />"#),
            Look::Refused => cross(x, y),
            Look::Declined => stroke(&format!("M{} {y} h7", f64::from(x) - 3.5)),
            Look::Unknown => {
                format!(r#"<text class="sign" x="{x}" y="{}" text-anchor="middle">?</text>"#, f64::from(y) + 4.2)
            }
            Look::Silent => stroke(&format!("M{} {} v5 h3.5", x - 1, y - 4)),
            _ => format!(r#"<text class="sign" x="{x}" y="{}" text-anchor="middle">!</text>"#, f64::from(y) + 4.5),
        };
        format!(r#"<g class="mark {class}">{shape}{sign}</g>"#)
    }
}

fn stroke(path: &str) -> String {
    format!(r#"<path class="sign" d="{path}" />"#)
}

fn tick(x: i32, y: i32) -> String {
    stroke(&format!("M{} {y} l2.6 3 4.6 -6", f64::from(x) - 3.8))
}

fn cross(x: i32, y: i32) -> String {
    stroke(&format!("M{} {} l6 6 m0 -6 l-6 6", x - 3, y - 3))
}

#[cfg(test)]
mod tests {
    use super::*;

    #[test]
    fn every_closing_has_its_look() {
        for (closing, look) in [
            ("answered", Look::Answered),
            ("refused", Look::Refused),
            ("unknown", Look::Unknown),
            ("acknowledged", Look::Acknowledged),
            ("refused by NAK", Look::Refused),
            ("illegal command", Look::Refused),
            ("damaged", Look::Damaged),
            ("silent", Look::Silent),
            ("open", Look::Open),
            ("something else", Look::Plain),
            ("", Look::Plain),
        ] {
            assert_eq!(Look::of_closing(closing), look, "{closing}");
        }
    }
}
