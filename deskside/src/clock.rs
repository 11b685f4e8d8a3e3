//! Milliseconds as `host` is given them. The clock is the machine's, which never goes back, in whole milliseconds; none is lost, and those in which
//! a frame of ours is still leaving are not counted.

use std::sync::atomic::{AtomicU64, Ordering};
use std::time::Instant;

/// The most that one tick may be (document 01, number 6).
const TICK: u64 = 1_000;

/// Where the time comes from.
pub enum Time {
    Machine(Instant),
    /// For tests: time passes where an order says so, and else stands still.
    Orders(AtomicU64),
}

impl Time {
    pub fn machine() -> Time {
        Time::Machine(Instant::now())
    }

    pub fn orders() -> Time {
        Time::Orders(AtomicU64::new(0))
    }

    /// Whole milliseconds since the start.
    pub fn now(&self) -> u64 {
        match self {
            Time::Machine(start) => start.elapsed().as_millis() as u64,
            Time::Orders(ms) => ms.load(Ordering::SeqCst),
        }
    }

    /// Time that an order says has passed.
    pub fn pass(&self, more: u64) {
        if let Time::Orders(ms) = self {
            ms.fetch_add(more, Ordering::SeqCst);
        }
    }

    pub fn is_ordered(&self) -> bool {
        matches!(self, Time::Orders(_))
    }
}

/// What has been given of the time.
#[derive(Clone, Debug, Default)]
pub struct Clock {
    given: u64,
    /// What is not counted.
    held: u64,
    /// When something was last sent or came, and when the last tick was given.
    stirred: u64,
    ticked: u64,
}

impl Clock {
    /// The ticks that are due at a time: together what has passed since the last, none over a second.
    pub fn due(&mut self, at: u64) -> Vec<u32> {
        let mut rest = at.saturating_sub(self.held).saturating_sub(self.given);
        let mut ticks = Vec::new();
        while rest > 0 {
            let tick = rest.min(TICK);
            ticks.push(tick as u32);
            rest -= tick;
            self.given += tick;
        }
        if !ticks.is_empty() {
            self.ticked = at;
        }
        ticks
    }

    /// Nothing is counted from what was last given until this time.
    pub fn hold(&mut self, until: u64) {
        self.held = self.held.max(until.saturating_sub(self.given));
    }

    /// Something was sent or came: ticks are close together now.
    pub fn stir(&mut self, at: u64) {
        self.stirred = self.stirred.max(at);
    }

    /// When the next tick is to be given, where nothing else happens: an eighth of the time since something was sent or came, at least
    /// 5 ms and at most a second after the last.
    pub fn next(&self) -> u64 {
        let since = self.ticked.saturating_sub(self.stirred);
        self.ticked.max(self.stirred) + (since / 8).clamp(5, TICK)
    }
}

#[cfg(test)]
mod tests {
    use super::*;

    #[test]
    fn no_millisecond_is_lost_and_no_tick_is_over_a_second() {
        let mut clock = Clock::default();
        assert_eq!(clock.due(0), []);
        assert_eq!(clock.due(3), [3]);
        assert_eq!(clock.due(3), []);
        assert_eq!(clock.due(1_003), [1_000]);
        assert_eq!(clock.due(3_504), [1_000, 1_000, 501]);
        // a stamp from before is no step back
        assert_eq!(clock.due(2_000), []);
        assert_eq!(clock.due(3_505), [1]);
    }

    #[test]
    fn what_is_held_is_not_counted() {
        let mut clock = Clock::default();
        assert_eq!(clock.due(100), [100]);
        // a frame was sent at 100 and has left at 107
        clock.hold(107);
        assert_eq!(clock.due(104), []);
        assert_eq!(clock.due(107), []);
        assert_eq!(clock.due(109), [2]);
        // a second one before the first has left
        clock.hold(112);
        clock.hold(110);
        assert_eq!(clock.due(113), [1]);
        assert_eq!(clock.due(1_113), [1_000]);
    }

    /// Whatever is stamped, held and given: every millisecond is either given or held, and none before its time.
    #[test]
    fn every_millisecond_is_given_or_held() {
        let mut seed: u64 = 7;
        let mut draw = |below: u64| {
            seed = seed.wrapping_mul(6_364_136_223_846_793_005).wrapping_add(1_442_695_040_888_963_407);
            (seed >> 33) % below
        };
        for _ in 0..200 {
            let mut clock = Clock::default();
            let (mut now, mut given) = (0u64, 0);
            for _ in 0..200 {
                now += [0, 1, 7, 40, 3_000][draw(5) as usize];
                let ticks = clock.due(now.saturating_sub(draw(3) * 5));
                assert!(ticks.iter().all(|ms| (1..=1_000).contains(ms)));
                given += ticks.iter().map(|&ms| u64::from(ms)).sum::<u64>();
                assert!(given <= now);
                if draw(4) == 0 {
                    clock.hold(now + draw(20));
                }
            }
            let end = now + 100;
            given += clock.due(end).into_iter().map(u64::from).sum::<u64>();
            assert_eq!(given + clock.held, end);
        }
    }

    #[test]
    fn ticks_are_close_together_while_something_happens() {
        let mut clock = Clock::default();
        clock.due(10_000);
        clock.stir(10_000);
        assert_eq!(clock.next(), 10_005);
        let mut ticks = 0;
        while clock.next() < 10_000 + 5_050 {
            let next = clock.next();
            assert!((1..=1_000).contains(&(next - clock.ticked)));
            clock.due(next);
            ticks += 1;
        }
        assert!(ticks < 80, "{ticks}");
        clock.due(60_000);
        assert_eq!(clock.next(), 61_000);
    }
}
