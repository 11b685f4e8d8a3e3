//! What happens, in the order in which it happened. Whoever puts an event in stamps it under the same lock under which events are taken out: so
//! whatever is not in the queue when it is emptied happens later than that.

use crate::clock::Time;
use crate::side::Side;
use std::collections::VecDeque;
use std::sync::{Arc, Condvar, Mutex, MutexGuard, PoisonError};
use std::time::{Duration, Instant};

#[derive(Clone, Debug, PartialEq, Eq)]
pub enum What {
    Byte(Side, u8),
    /// Nothing more comes from this line, and why.
    Ended(Side, String),
    Order(String),
    /// Nobody orders any more; why, where orders could not be read.
    OrdersEnded(Option<String>),
}

#[derive(Clone, Debug, PartialEq, Eq)]
pub struct Event {
    pub at: u64,
    pub what: What,
}

pub struct Queue {
    time: Arc<Time>,
    events: Mutex<VecDeque<Event>>,
    came: Condvar,
}

impl Queue {
    pub fn new(time: Arc<Time>) -> Queue {
        Queue { time, events: Mutex::new(VecDeque::new()), came: Condvar::new() }
    }

    fn lock(&self) -> MutexGuard<'_, VecDeque<Event>> {
        self.events.lock().unwrap_or_else(PoisonError::into_inner)
    }

    pub fn put(&self, what: impl IntoIterator<Item = What>) {
        let mut events = self.lock();
        let at = self.time.now();
        events.extend(what.into_iter().map(|what| Event { at, what }));
        self.came.notify_one();
    }

    /// Everything that happened so far, after waiting for something to happen: no longer than `most`, where that is given.
    pub fn take(&self, most: Option<Duration>) -> VecDeque<Event> {
        let mut events = self.lock();
        let end = most.map(|most| Instant::now() + most);
        while events.is_empty() {
            match end.map(|end| end.saturating_duration_since(Instant::now())) {
                None => events = self.came.wait(events).unwrap_or_else(PoisonError::into_inner),
                Some(Duration::ZERO) => break,
                Some(rest) => events = self.came.wait_timeout(events, rest).unwrap_or_else(PoisonError::into_inner).0,
            }
        }
        std::mem::take(&mut *events)
    }
}

#[cfg(test)]
mod tests {
    use super::*;

    #[test]
    fn events_keep_their_order_and_their_time() {
        let time = Arc::new(Time::orders());
        let queue = Queue::new(Arc::clone(&time));
        queue.put([What::Byte(Side::Dispenser, 1), What::Byte(Side::Dispenser, 2)]);
        time.pass(7);
        queue.put([What::Order("poll".into())]);
        let taken: Vec<_> = queue.take(None).into_iter().map(|event| (event.at, event.what)).collect();
        let wanted =
            [(0, What::Byte(Side::Dispenser, 1)), (0, What::Byte(Side::Dispenser, 2)), (7, What::Order("poll".into()))];
        assert_eq!(taken, wanted);
        assert!(queue.take(Some(Duration::from_millis(1))).is_empty());
    }

    #[test]
    fn many_threads_lose_nothing() {
        let queue = Arc::new(Queue::new(Arc::new(Time::machine())));
        let threads: Vec<_> = (0..4)
            .map(|n| {
                let queue = Arc::clone(&queue);
                std::thread::spawn(move || (0..1_000).for_each(|_| queue.put([What::Byte(Side::Validator, n)])))
            })
            .collect();
        let mut taken = Vec::new();
        while taken.len() < 4_000 {
            taken.extend(queue.take(Some(Duration::from_secs(10))));
        }
        threads.into_iter().for_each(|thread| thread.join().unwrap());
        assert!(taken.windows(2).all(|pair| pair[0].at <= pair[1].at));
        assert_eq!(taken.len(), 4_000);
    }
}
