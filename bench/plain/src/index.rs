// What the search needs of a timetable, made once: the events of each station in time, for the three days on which a run
// may set out, and the hops of each run.
use crate::timetable::Timetable;

// A run, by its number, leaves a place, or arrives there. Places are rows of stops, once for each shift.
#[derive(Clone, Copy)]
pub struct Event {
    pub time: u16,
    pub run: u16,
    pub place: u16,
    pub leaves: bool,
}

// From a stop to the next, and the stand before it.
#[derive(Clone, Copy, Default)]
pub struct Hop {
    pub stand: u16,
    pub minutes: u16,
    pub fare: u16,
}

#[derive(Clone, Copy)]
pub struct Run {
    pub first: u16,
    pub last: u16,
}

pub struct Index {
    pub timetable: Timetable,
    // the events of station s are those from starts[s] to starts[s + 1]
    starts: Vec<usize>,
    events: Vec<Event>,
    // by place
    pub hops: Vec<Hop>,
    pub stations: Vec<u16>,
    pub times: Vec<u16>,
    pub runs: Vec<Run>,
}

impl Index {
    pub fn new(timetable: Timetable) -> Index {
        let rows = timetable.stops.len();
        let mut events: Vec<(u16, Event)> = Vec::with_capacity(6 * rows);
        let mut hops = vec![Hop::default(); 3 * rows];
        let mut stations = vec![0; 3 * rows];
        let mut times = vec![0; 3 * rows];
        let mut runs = Vec::with_capacity(3 * timetable.trains.len());
        for shift in 0..3 {
            let midnight = shift as u16 * 1440;
            for train in &timetable.trains {
                let run = runs.len() as u16;
                let first = shift * rows + train.first;
                let stops = &timetable.stops[train.first..train.first + train.count];
                runs.push(Run { first: first as u16, last: (first + train.count - 1) as u16 });
                for (i, stop) in stops.iter().enumerate() {
                    let place = first + i;
                    stations[place] = stop.station;
                    if let Some(arrive) = stop.arrive {
                        let time = arrive + midnight;
                        times[place] = time;
                        let event = Event { time, run, place: place as u16, leaves: false };
                        events.push((stop.station, event));
                    }
                    if let Some((leave, fare)) = stop.depart {
                        let time = leave + midnight;
                        hops[place] = Hop {
                            stand: leave - stop.arrive.unwrap_or(leave),
                            minutes: stops[i + 1].arrive.unwrap_or(leave) - leave,
                            fare,
                        };
                        let event = Event { time, run, place: place as u16, leaves: true };
                        events.push((stop.station, event));
                    }
                }
            }
        }
        // who arrives at a minute may leave at the same
        events.sort_by_key(|(station, event)| (*station, event.time, event.leaves));
        let starts = (0..=1024)
            .map(|station| events.partition_point(|event| event.0 < station))
            .collect();
        let events = events.into_iter().map(|event| event.1).collect();
        Index { timetable, starts, events, hops, stations, times, runs }
    }

    pub fn events_at(&self, station: u16) -> &[Event] {
        let station = usize::from(station);
        &self.events[self.starts[station]..self.starts[station + 1]]
    }
}
