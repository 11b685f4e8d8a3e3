//! The kept requests as a table.

use crate::look::Look;
use crate::markup::escaped;
use std::fmt::Write;

/// A row for each line, as `45 upper 10 lower 0 handed 1 answered paid 10 0`.
pub fn kept(lines: &[String]) -> String {
    if lines.is_empty() {
        return "<p>No payout was asked for.</p>\n".into();
    }
    let mut out = String::from(
        "<div class=\"scroll\"><table class=\"kept\">\n<thead><tr><th></th><th class=\"n\" colspan=\"2\">asked</th><th class=\"n\">handed</th>\
         <th></th><th class=\"n\" colspan=\"2\">paid</th></tr>\n<tr><th>code</th><th class=\"n\">upper</th><th class=\"n\">lower</th>\
         <th class=\"n\">over</th><th class=\"how\">closed</th><th class=\"n\">upper</th><th class=\"n\">lower</th></tr></thead>\n<tbody>\n",
    );
    for line in lines {
        let words: Vec<&str> = line.split_whitespace().collect();
        let _ = match words[..] {
            [code, "upper", upper, "lower", lower, "handed", handed, ref closed @ ..] => {
                row(&mut out, code, [upper, lower, handed], closed)
            }
            _ => writeln!(out, "<tr><td colspan=\"7\">{}</td></tr>", escaped(line)),
        };
    }
    out.push_str("</tbody></table></div>\n");
    out
}

fn row(out: &mut String, code: &str, numbers: [&str; 3], closed: &[&str]) -> std::fmt::Result {
    let paid = closed.iter().position(|&word| word == "paid");
    let (how, paid) = closed.split_at(paid.unwrap_or(closed.len()));
    let how = how.join(" ");
    write!(out, "<tr><td>{}h</td>", escaped(code))?;
    for number in numbers {
        write!(out, "<td class=\"n\">{}</td>", escaped(number))?;
    }
    let class = Look::of_closing(&how).class();
    write!(out, "<td class=\"how {class}\">{}</td>", escaped(&how))?;
    for place in 1..=2 {
        write!(out, "<td class=\"n\">{}</td>", escaped(paid.get(place).unwrap_or(&"")))?;
    }
    out.push_str("</tr>\n");
    Ok(())
}

#[cfg(test)]
mod tests {
    use super::*;

    #[test]
    fn a_row_for_each() {
        let table = kept(&[
            "56 upper 5 lower 3 handed 3 answered paid 6 2".into(),
            "45 upper 1 lower 0 handed 4 refused".into(),
        ]);
        assert!(table.contains("<td>56h</td><td class=\"n\">5</td><td class=\"n\">3</td><td class=\"n\">3</td><td class=\"how answered\">answered</td><td class=\"n\">6</td><td class=\"n\">2</td>"));
        assert!(table.contains("<td class=\"how refused\">refused</td><td class=\"n\"></td><td class=\"n\"></td>"));
        assert!(kept(&["what<".into()]).contains("what&lt;"));
        assert!(!kept(&[]).contains("table"));
    }
}
