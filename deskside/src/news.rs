//! What is new of polls that are made again and again: the operator is shown what differs from the poll before.

/// The lines of one poll and of the one before.
#[derive(Clone, Debug, Default)]
pub struct News {
    before: Vec<String>,
    now: Vec<String>,
    polling: bool,
}

impl News {
    /// A poll begins that nobody typed.
    pub fn poll(&mut self) {
        self.before = std::mem::take(&mut self.now);
        self.polling = true;
    }

    /// Somebody typed an order: what follows is shown.
    pub fn typed(&mut self) {
        *self = News::default();
    }

    /// Whether a line is to be shown: whatever is about the dispenser is.
    pub fn is_new(&mut self, line: &str) -> bool {
        if !self.polling || line.contains("dispenser") {
            return true;
        }
        let plain = plain(line);
        let new = self.before.get(self.now.len()).map(String::as_str) != Some(plain);
        self.now.push(plain.into());
        new
    }
}

/// What became of a record, without when and where it stands: that differs each time.
fn plain(line: &str) -> &str {
    line.split_once('|').map_or(line, |(_, made)| made).trim()
}

#[cfg(test)]
mod tests {
    use super::*;

    #[test]
    fn polls_without_news_are_not_shown() {
        let mut news = News::default();
        assert!(news.is_new("5 ms @2 poll | validator sends 02"));
        news.poll();
        assert!(news.is_new("5 ms @2 poll | validator sends 02"));
        assert!(news.is_new("9 ms @4 validator D4h | answer idling"));
        news.poll();
        assert!(!news.is_new("205 ms @9 poll | validator sends 02"));
        assert!(news.is_new("206 ms @11 dispenser 06h | dispenser waits 90,000 ms"));
        assert!(!news.is_new("209 ms @12 validator D4h | answer idling"));
        news.poll();
        assert!(!news.is_new("405 ms @19 poll | validator sends 02"));
        assert!(news.is_new("409 ms @22 validator D4h | answer stacked 3; bill type 3 booked"));
        news.typed();
        assert!(news.is_new("500 ms @30 poll | validator sends 02"));
        assert!(news.is_new("600 ms @40 poll | validator sends 02"));
    }
}
