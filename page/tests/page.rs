//! Whole pages: each is well-formed, holds the report's numbers, escapes what it is told, and keeps to its arrows.

use page::page::ARROWS;

/// What is wrong with a page's tags: each that is opened is closed, in its order; values stand in quotation marks; no bare `<` or `&`.
fn fault(page: &str) -> Option<String> {
    let mut rest = page.strip_prefix("<!DOCTYPE html>\n")?;
    let mut open: Vec<&str> = Vec::new();
    while let Some(at) = rest.find(['<', '&']) {
        let mark = &rest[at..];
        if mark.starts_with('&') {
            let end = mark.find(';').filter(|&end| end <= 6);
            let Some(end) = end else { return Some(format!("a bare &: {:.30}", mark)) };
            rest = &mark[end..];
            continue;
        }
        let Some(end) = mark.find('>') else { return Some(format!("a tag without an end: {:.30}", mark)) };
        let tag = &mark[1..end];
        if let Some(name) = tag.strip_prefix('/') {
            if open.pop() != Some(name) {
                return Some(format!("{name} is closed and not open"));
            }
        } else {
            let name = tag.split([' ', '/']).next().unwrap_or_default();
            if name.is_empty() || !name.bytes().all(|byte| byte.is_ascii_alphanumeric() || byte == b'!') {
                return Some(format!("no name: {tag:.30}"));
            }
            if !tag[name.len()..].split('"').enumerate().all(|(i, part)| i % 2 == 1 || is_between_values(part)) {
                return Some(format!("a value without its marks: {tag}"));
            }
            if !tag.ends_with(" /") {
                open.push(name);
            }
        }
        rest = &mark[end + 1..];
    }
    open.last().map(|name| format!("{name} is not closed"))
}

/// What stands before the first value of a tag, between two, or behind the last: ` name=`, ` /` or nothing.
fn is_between_values(part: &str) -> bool {
    let name = part.strip_prefix(' ').and_then(|part| part.strip_suffix('='));
    matches!(part, "" | " /")
        || name.is_some_and(|name| name.bytes().all(|byte| byte.is_ascii_alphabetic() || byte == b'-'))
}

fn draw(title: &str, text: &str) -> String {
    let page = page::draw(title, text.as_bytes()).unwrap();
    assert_eq!(fault(&page), None);
    page
}

const WHOLE_CASE: &str = include_str!("whole_case.txt");

#[test]
fn the_checker_sees_faults() {
    let page = |body: &str| format!("<!DOCTYPE html>\n<p>{body}</p>\n");
    assert_eq!(fault(&page("a &amp; <b class=\"x\">c</b><br />")), None);
    for body in ["<b>", "</b>", "<b></i></b>", "a & b", "<b class=x\">c</b>", "< b", "<b"] {
        assert!(fault(&page(body)).is_some(), "{body}");
    }
}

#[test]
fn the_whole_case() {
    let page = draw("whole_case.rec", WHOLE_CASE);
    let (_, report) = WHOLE_CASE.split_once("\nreport\n").unwrap();
    for line in report.lines() {
        assert!(page.contains(line), "{line}");
    }
    for text in [
        "<h1>whole_case.rec</h1>",
        "22 records",
        "10 = 10 ✓",
        "10 asked + 0 over = 10 paid + 0 short + 0 refused + 0 unknown + 0 open",
        "<td>45h</td>",
        ">pay upper 10<",
        ">04 50 02 45 31 30 03 11<",
        ">01 50 02 45 31 30 31 30<",
        ">30 30 30 30 03 15<",
        ">5,200 ms<",
        "class=\"bar answered\"",
    ] {
        assert!(page.contains(text), "{text}");
    }
}

/// Every example that is told beside its recording: its page is well-formed and holds each line of its report.
#[test]
fn every_example() {
    let folder = concat!(env!("CARGO_MANIFEST_DIR"), "/../crates/regression/data");
    let mut drawn = 0;
    for entry in std::fs::read_dir(folder).unwrap() {
        let path = entry.unwrap().path();
        if path.extension().is_some_and(|end| end == "explained") {
            let text = std::fs::read_to_string(&path).unwrap();
            let page = draw("example", &text);
            let (_, report) = text.split_once("\nreport\n").unwrap();
            for line in report.lines() {
                assert!(page.contains(line), "{}: {line}", path.display());
            }
            drawn += 1;
        }
    }
    assert!(drawn >= 42, "{drawn} examples");
}

#[test]
fn no_network_and_no_script() {
    let page = draw("t", WHOLE_CASE);
    for word in ["http:", "https:", "<script", "src=", "href=", "@import", "url("] {
        assert!(!page.contains(word), "{word}");
    }
}

#[test]
fn what_is_told_is_escaped() {
    let text = "1 ms @0 <script>&\"' | <b>; dispenser closed <i>; booked & \u{1}\n<aside>&\n\nrequests\n45 <td>\n\nreport\n<upper> asked 1\nbad <22>\n";
    let page = draw("<title> & \"it\"", text);
    for raw in ["<script>", "<b>;", "<i>", "<aside>", "<td>\n", "<upper>", "<22>", "<title> &"] {
        assert!(!page.contains(raw), "{raw}");
    }
    assert!(page.contains("&lt;script&gt;&amp;&quot;&#39;"));
}

#[test]
fn a_bad_recording_is_drawn_up_to_its_fault() {
    let text = "1000 ms @0 tick 1000\n1000 ms @3 request pay upper 10 | refused 4: quiet for 1,000 of 5,200 ms\nbad 22 at 7: 02\n\nrequests\n\nreport\nbad 22 at 7\n";
    let page = draw("bad", text);
    assert!(page.contains(">bad 22 at 7: 02<"));
    assert!(page.contains("<b>bad 22 at 7</b>"));
    assert!(page.contains("refused 4: quiet for"));
    assert!(!page.contains("The account"));
}

#[test]
fn any_text_gives_a_page() {
    draw("", "");
    draw("t", "\n\n\nreport\n\nrequests\n");
    draw("t", "poll\n1 ms @\n1 ms @1\n- ms @1 x\n1 ms @1 dispenser | ;;;\n5 ms @9 dispenser zz | gathered 1 of 2\n1 ms @1 validator FFh | gathered\n");
    let bytes: Vec<u8> = (0..=255).chain(b'\n'..=b'~').cycle().take(20_000).collect();
    assert_eq!(fault(&page::draw("t", &bytes[..]).unwrap()), None);
}

/// Texts with lines changed, lost, doubled and out of order, and with any number in the place of another.
#[test]
fn any_change_of_a_text_gives_a_page() {
    let lines: Vec<&str> = include_str!("story.txt").lines().collect();
    let mut seed: u64 = 1;
    let mut draw_number = |below: usize| {
        seed = seed.wrapping_mul(6_364_136_223_846_793_005).wrapping_add(1_442_695_040_888_963_407);
        (seed >> 33) as usize % below
    };
    let numbers = ["0", "1", "999", "4294967295", "4,294,967,296", "18446744073709551615", "99999999999999999999", "x"];
    for _ in 0..300 {
        let mut text: Vec<String> = lines.iter().map(|line| line.to_string()).collect();
        for _ in 0..1 + draw_number(8) {
            let at = draw_number(text.len());
            let other = draw_number(text.len());
            match draw_number(5) {
                0 => text.swap(at, other),
                1 => drop(text.remove(at)),
                2 => text.insert(at, text[other].clone()),
                3 => text[at] = text[at].chars().filter(|_| draw_number(9) > 0).collect(),
                _ => {
                    let mut words: Vec<&str> = text[at].split(' ').collect();
                    let word = draw_number(words.len());
                    words[word] = numbers[draw_number(numbers.len())];
                    text[at] = words.join(" ");
                }
            }
        }
        draw("t", &text.join("\n"));
    }
}

/// Polls that are all different, so that none is folded.
fn polls(count: usize) -> String {
    let mut text: String =
        (0..count).map(|i| format!("{i} ms @{i} poll {i} | validator sends 02 03 06 33 DA 81\n")).collect();
    text.push_str("\nrequests\n\nreport\nrecords 1\n");
    text
}

fn arrows(page: &str) -> usize {
    let (_, chart) = page.split_once("<div class=\"chart\">").unwrap();
    chart.matches("class=\"arrow ").count()
}

#[test]
fn at_most_two_thousand_arrows() {
    let page = draw("t", &polls(ARROWS));
    assert_eq!(arrows(&page), 2_000);
    assert!(!page.contains("left out"));
    let page = draw("t", &polls(ARROWS + 501));
    assert_eq!(arrows(&page), 2_000);
    assert!(page.contains("501 more are left out here, from 2,000 ms on, offset 2000"));
    let page = draw("t", &polls(25_000));
    assert_eq!(arrows(&page), 2_000);
    assert!(page.contains("23,000 more are left out here, from 2,000 ms on, offset 2000"));
}

#[test]
fn what_comes_again_and_again_is_drawn_once() {
    let text: String =
        (0..1_000).map(|i| format!("{} ms @{i} poll | validator sends 02 03 06 33 DA 81\n", i * 200)).collect();
    let page = draw("t", &text);
    assert_eq!(arrows(&page), 1);
    assert!(page.contains("this step 999 times more, until 199,800 ms"));
    assert!(!page.contains("left out"));
}

#[test]
fn a_long_answer_has_all_its_bytes() {
    let mut text = String::new();
    for i in 0..255 {
        text.push_str(&format!(
            "7 ms @{i} validator {i:02X}h | {}\n",
            if i < 254 { "gathered 1 of 255" } else { "validator closed answered" }
        ));
    }
    let page = draw("t", &text);
    assert_eq!(arrows(&page), 1);
    assert!(page.contains(">F8 F9 FA FB FC FD FE<"));
    assert!(!page.contains("bytes more"));
    let page = draw("t", &format!("7 ms @0 dispenser {}| ignored\n", "41h ".repeat(1_300)));
    assert!(page.contains(">and 1,044 bytes more<"));
}
