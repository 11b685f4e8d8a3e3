//! Long recordings made shorter: what comes again and again is drawn once, and what goes beyond the limit is not drawn. The page says both.

use crate::blocks::{Block, Item, Rest};

/// So many blocks at most are taken for one thing that is repeated: a request, its first byte, its answer, a tick.
const PERIOD: usize = 4;
/// What comes less often is drawn each time.
const LEAST: usize = 3;

/// The same items, where what comes at least three times in succession stands once, and behind it how often it came again.
pub fn folded(items: Vec<Item>) -> Vec<Item> {
    let mut out = Vec::new();
    let mut rest = &items[..];
    while let Some(first) = rest.first() {
        match run(rest) {
            Some((period, times)) => {
                out.extend_from_slice(&rest[..period]);
                out.push(again(&rest[..period * times], period, times));
                rest = &rest[period * times..];
            }
            None => {
                out.push(first.clone());
                rest = &rest[1..];
            }
        }
    }
    out
}

/// The period and the times of the longest repetition at the start.
fn run(items: &[Item]) -> Option<(usize, usize)> {
    (1..=PERIOD)
        .map(|period| (period, times(items, period)))
        .filter(|&(_, times)| times >= LEAST)
        .max_by_key(|&(period, times)| (period * times, PERIOD - period))
}

fn times(items: &[Item], period: usize) -> usize {
    let Some(model) = items.get(..period) else { return 0 };
    items.chunks_exact(period).take_while(|chunk| chunk.iter().zip(model).all(|(one, other)| alike(one, other))).count()
}

fn alike(one: &Item, other: &Item) -> bool {
    match (one, other) {
        (Item::Block(one), Item::Block(other)) => one.alike(other),
        _ => false,
    }
}

fn again(run: &[Item], blocks: usize, times: usize) -> Item {
    let until = run.last().map_or(0, |item| match item {
        Item::Block(Block { until, .. }) => *until,
        _ => 0,
    });
    Item::Repeat { blocks, times: times as u64 - 1, arrows: run[blocks..].iter().map(Item::arrows).sum(), until }
}

/// As many items as have `most` arrows, and as many without one, and what is left out.
pub fn cut(mut items: Vec<Item>, most: usize) -> (Vec<Item>, Rest) {
    let (mut arrows, mut bare) = (0, 0);
    let fits = items
        .iter()
        .take_while(|item| {
            match item {
                Item::Block(block) if !block.arrows.is_empty() => arrows += block.arrows.len(),
                _ => bare += 1,
            }
            arrows <= most && bare <= most
        })
        .count();
    let mut rest = Rest::default();
    items.drain(fits..).for_each(|item| rest.add(&item));
    (items, rest)
}

#[cfg(test)]
mod tests {
    use super::*;
    use crate::blocks::Blocks;
    use crate::told::Record;

    fn items(words: &[&str]) -> Vec<Item> {
        let mut blocks = Blocks::new(usize::MAX);
        for (i, &words) in words.iter().enumerate() {
            let parts = vec!["validator sends 02 03 06 33 DA 81".into()];
            blocks.record(Record { ms: i as u64, at: 2 * i as u64, words: words.into(), parts });
        }
        blocks.end().0
    }

    fn told(items: &[Item]) -> Vec<String> {
        let one = |item: &Item| match item {
            Item::Block(block) => block.notes[0].text.clone(),
            Item::Repeat { blocks, times, arrows, until } => format!("{blocks} {times} {arrows} {until}"),
            Item::Aside(text) => text.clone(),
        };
        items.iter().map(one).collect()
    }

    #[test]
    fn what_comes_three_times_stands_once() {
        let polls = ["poll", "stack", "poll", "stack", "poll", "stack", "hold", "hold", "poll", "poll", "poll", "poll"];
        assert_eq!(told(&folded(items(&polls))), ["poll", "stack", "2 2 4 5", "hold", "hold", "poll", "1 3 3 11"]);
        assert!(folded(Vec::new()).is_empty());
    }

    #[test]
    fn no_more_than_the_limit() {
        let (kept, rest) = cut(items(&["poll", "stack", "hold"]), 2);
        assert_eq!(told(&kept), ["poll", "stack"]);
        assert_eq!(rest, Rest { arrows: 1, begins: Some((2, 4)) });
        let (kept, rest) = cut(items(&["poll", "stack"]), 2);
        assert_eq!((kept.len(), rest), (2, Rest::default()));
    }
}
