// A timetable, read from its text with the checks of the rules, each line looked at once.
use crate::fields::{number, time};
use std::fmt;

const NAMES: &[u8] = b"train,code,features,station,arrive,depart,fare\n";

#[derive(Clone, Copy)]
pub struct Stop {
    pub station: u16,
    pub arrive: Option<u16>,
    // the minute, and the fare to the next stop
    pub depart: Option<(u16, u16)>,
}

pub struct Train {
    pub number: u16,
    pub code: u8,
    pub features: u16,
    pub first: usize,
    pub count: usize,
}

pub struct Timetable {
    pub trains: Vec<Train>,
    pub stops: Vec<Stop>,
}

pub struct Fault {
    pub number: u8,
    pub line: usize,
    pub column: usize,
}

impl fmt::Display for Fault {
    fn fmt(&self, f: &mut fmt::Formatter) -> fmt::Result {
        write!(f, "{}:{}: refused {}", self.line, self.column, self.number)
    }
}

struct Line {
    number: u16,
    code: u8,
    features: u16,
    stop: Stop,
}

// What a line without its line feed says, or the column that is malformed.
fn line_of(bytes: &[u8]) -> Result<Line, usize> {
    let mut fields = [&bytes[..0]; 7];
    let mut columns = [0; 7];
    let (mut count, mut at) = (0, 0);
    for field in bytes.split(|byte| *byte == b',') {
        if count == 7 {
            return Err(0);
        }
        (fields[count], columns[count]) = (field, at + 1);
        at += field.len() + 1;
        count += 1;
    }
    if count != 7 {
        return Err(0);
    }
    let whole = |n: usize, most| number(fields[n], most).ok_or(columns[n]);
    let minute = |n: usize| match fields[n] {
        [] => Ok(None),
        bytes => time(bytes).map(Some).ok_or(columns[n]),
    };
    let train = whole(0, 65535)? as u16;
    let code = whole(1, 255)? as u8;
    let features = whole(2, 65535)? as u16;
    let station = whole(3, 65535)? as u16;
    let arrive = minute(4)?;
    let depart = match (minute(5)?, fields[6].is_empty()) {
        (Some(minute), _) => Some((minute, whole(6, 65535)? as u16)),
        (None, true) => None,
        (None, false) => return Err(columns[6]),
    };
    let stop = Stop { station, arrive, depart };
    Ok(Line { number: train, code, features, stop })
}

// Why the stop may not follow the one before it in its train.
fn stop_refusal(before: Option<&Stop>, stop: &Stop) -> Option<u8> {
    if stop.station > 1023 {
        return Some(6);
    }
    if before.is_some_and(|b| b.station == stop.station) {
        return Some(7);
    }
    let wrong = match before {
        None => stop.arrive.is_some() || stop.depart.is_none(),
        Some(_) => stop.arrive.is_none(),
    };
    if wrong {
        return Some(8);
    }
    let leaves = stop.depart.map(|d| d.0);
    let left = before.and_then(|b| b.depart).map(|d| d.0);
    let bad = stop.arrive.is_some_and(|m| m > 2879)
        || leaves.is_some_and(|m| m > 2879)
        || stop.arrive.zip(leaves).is_some_and(|(arrive, leave)| leave < arrive)
        || left.zip(stop.arrive).is_some_and(|(left, arrive)| arrive <= left);
    bad.then_some(9)
}

impl Timetable {
    pub fn read(text: &[u8]) -> Result<Timetable, Fault> {
        let mut table = Timetable { trains: Vec::new(), stops: Vec::new() };
        let mut known = vec![false; 65536];
        let Some(mut left) = text.strip_prefix(NAMES) else {
            return Err(Fault { number: 18, line: 1, column: 0 });
        };
        let (mut line, mut open) = (1, false);
        while !left.is_empty() {
            line += 1;
            let fault = |number, column| Fault { number, line, column };
            let Some(end) = left.iter().position(|byte| *byte == b'\n') else {
                return Err(fault(19, 0));
            };
            let said = line_of(&left[..end]).map_err(|column| fault(19, column))?;
            left = &left[end + 1..];
            if open {
                let train = table.trains.last().expect("a train is open");
                if (train.number, train.code, train.features)
                    != (said.number, said.code, said.features)
                {
                    return Err(fault(20, 1));
                }
            } else {
                table.begin(&said, &mut known).map_err(|number| fault(number, 0))?;
            }
            table.add(said.stop).map_err(|number| fault(number, 0))?;
            open = said.stop.depart.is_some();
        }
        if open {
            return Err(Fault { number: 11, line, column: 0 });
        }
        Ok(table)
    }

    fn begin(&mut self, line: &Line, known: &mut [bool]) -> Result<(), u8> {
        if line.number == 0 {
            return Err(2);
        }
        if known[line.number as usize] {
            return Err(3);
        }
        if self.trains.len() == 512 {
            return Err(4);
        }
        known[line.number as usize] = true;
        self.trains.push(Train {
            number: line.number,
            code: line.code,
            features: line.features,
            first: self.stops.len(),
            count: 0,
        });
        Ok(())
    }

    fn add(&mut self, stop: Stop) -> Result<(), u8> {
        let train = self.trains.last_mut().expect("a train is open");
        if let Some(number) = stop_refusal(self.stops[train.first..].last(), &stop) {
            return Err(number);
        }
        if train.count == 64 || self.stops.len() == 4096 {
            return Err(10);
        }
        train.count += 1;
        self.stops.push(stop);
        Ok(())
    }
}
