// The three tariffs, each over totals of one number.
use std::collections::VecDeque;

// The total of a place that is not reached.
pub const NONE: u32 = u32::MAX;

pub trait Tariff {
    // The arrivals at a station that may be worth changing from, while one goes through its events in time.
    type Window: Default;

    fn start(&self, wait: u32) -> u32;
    fn on_board(&self, total: u32, minutes: u32, fare: u32) -> u32;
    fn arrive(&self, window: &mut Self::Window, time: u32, total: u32);
    // The best total of who boards at that time, NONE if nobody has arrived.
    fn board(&self, window: &mut Self::Window, time: u32) -> u32;
    // Whether nothing that begins with this total can be cheaper than what came to `best`.
    fn is_hopeless(&self, total: u32, best: u32) -> bool {
        total >= best
    }
}

pub struct Minutes {
    pub penalty: u32,
}

impl Tariff for Minutes {
    // the least total at midnight of the day before, as it were
    type Window = Option<i32>;

    fn start(&self, wait: u32) -> u32 {
        wait
    }

    fn on_board(&self, total: u32, minutes: u32, _fare: u32) -> u32 {
        total + minutes
    }

    fn arrive(&self, window: &mut Option<i32>, time: u32, total: u32) {
        let new = total as i32 - time as i32;
        *window = Some(window.map_or(new, |old| old.min(new)));
    }

    fn board(&self, window: &mut Option<i32>, time: u32) -> u32 {
        window.map_or(NONE, |least| (least + time as i32) as u32 + self.penalty)
    }
}

// The fare alone: the minutes are the same for all who are at one place at one time.
pub struct Fares;

impl Tariff for Fares {
    type Window = Option<u32>;

    fn start(&self, _wait: u32) -> u32 {
        0
    }

    fn on_board(&self, total: u32, _minutes: u32, fare: u32) -> u32 {
        total + fare
    }

    fn arrive(&self, window: &mut Option<u32>, _time: u32, total: u32) {
        *window = Some(window.map_or(total, |old| old.min(total)));
    }

    fn board(&self, window: &mut Option<u32>, _time: u32) -> u32 {
        window.unwrap_or(NONE)
    }

    fn is_hopeless(&self, total: u32, best: u32) -> bool {
        // the same fare may still take fewer minutes
        total > best
    }
}

pub struct Waits;

impl Tariff for Waits {
    // Times and totals, both growing: an arrival is dropped where a later one is no dearer. The first is the best to
    // change from, once those are dropped in front whose own wait is no less than the total from the next.
    type Window = VecDeque<(u32, u32)>;

    fn start(&self, wait: u32) -> u32 {
        wait
    }

    fn on_board(&self, total: u32, _minutes: u32, _fare: u32) -> u32 {
        total
    }

    fn arrive(&self, window: &mut Self::Window, time: u32, total: u32) {
        while window.back().is_some_and(|last| last.1 >= total) {
            window.pop_back();
        }
        window.push_back((time, total));
    }

    fn board(&self, window: &mut Self::Window, time: u32) -> u32 {
        let from = |arrival: &(u32, u32)| arrival.1.max(time - arrival.0);
        while window.len() > 1 && from(&window[1]) <= time - window[0].0 {
            window.pop_front();
        }
        window.front().map_or(NONE, from)
    }
}
