// A query line: FROM TO DAY TIME CHANGES FEATURES TARIFF, the day as a number.
use crate::fields::{number, time};

#[derive(Clone, Copy)]
pub enum Asked {
    Minutes(u32),
    Fares,
    Waits,
}

#[derive(Clone, Copy)]
pub struct Query {
    pub origin: u16,
    pub destination: u16,
    pub day: u16,
    pub minute: u16,
    pub changes: u8,
    pub features: u16,
    pub asked: Asked,
}

impl Query {
    pub fn read(line: &str) -> Option<Query> {
        let mut words = line.split(' ').map(str::as_bytes);
        let mut short = || number(words.next()?, 65535).map(|n| n as u16);
        let (origin, destination, day) = (short()?, short()?, short()?);
        let minute = time(words.next()?)?;
        let changes = number(words.next()?, 255)? as u8;
        let features = number(words.next()?, 65535)? as u16;
        let asked = match words.next()? {
            b"fares" => Asked::Fares,
            b"waits" => Asked::Waits,
            word => Asked::Minutes(number(word.strip_prefix(b"minutes:")?, 65535)?),
        };
        Some(Query { origin, destination, day, minute, changes, features, asked })
    }

    // The number under which the query is refused before anything is looked for.
    pub fn refusal(&self) -> Option<u8> {
        if matches!(self.asked, Asked::Minutes(penalty) if penalty > 1440) {
            return Some(22);
        }
        if self.origin > 1023
            || self.destination > 1023
            || self.day == 0
            || self.day == u16::MAX
            || self.minute > 1439
            || self.changes > 15
        {
            return Some(13);
        }
        (self.origin == self.destination).then_some(14)
    }

    // Minutes count from midnight of the day before the query's.
    pub fn ready(&self) -> u16 {
        self.minute + 1440
    }

    // Whether a train with this code and these features can be used when it sets out on the day before (0), the same (1)
    // or the day after (2), by the weekly calendar.
    pub fn can_use(&self, code: u8, features: u16, shift: usize) -> bool {
        let weekday = (u32::from(self.day) - 1 + shift as u32 + 5) % 7;
        features & self.features == self.features && code >> weekday & 1 == 1
    }
}
