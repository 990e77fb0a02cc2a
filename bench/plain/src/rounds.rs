// The search by rounds: each round boards what can be caught from the arrivals of the one before, and rides on from there.
use crate::index::{Index, Run};
use crate::query::Query;
use crate::tariffs::{NONE, Tariff};

// What a search works in; it is made once and left blank by each search.
pub struct Desk {
    // the best total at each place with as many rides as there were, and with one ride fewer than now
    best: Vec<u32>,
    fresh: Vec<u32>,
    // the best total of who boards at each place now
    boarded: Vec<u32>,
    // for each run the first place at which it is boarded now
    from: Vec<u16>,
    usable: Vec<bool>,
    // which of these are to be looked at
    fresh_places: Vec<u16>,
    runs: Vec<u16>,
    stations: Vec<u16>,
    is_marked: Vec<bool>,
    // whether to drop what cannot be cheaper than the best connection so far
    aims: bool,
}

const NOWHERE: u16 = u16::MAX;

impl Desk {
    pub fn new(index: &Index, aims: bool) -> Desk {
        let places = index.hops.len();
        Desk {
            best: vec![NONE; places],
            fresh: vec![NONE; places],
            boarded: vec![NONE; places],
            from: vec![NOWHERE; index.runs.len()],
            usable: vec![false; index.runs.len()],
            fresh_places: Vec::new(),
            runs: Vec::new(),
            stations: Vec::new(),
            is_marked: vec![false; 1024],
            aims,
        }
    }

    fn board(&mut self, run: u16, place: u16, total: u32) {
        self.boarded[usize::from(place)] = total;
        let from = &mut self.from[usize::from(run)];
        if *from == NOWHERE {
            self.runs.push(run);
        }
        *from = place.min(*from);
    }
}

// The cheapest total and its minutes.
pub type Found = (u32, u32);

struct Search<'a, T> {
    index: &'a Index,
    tariff: &'a T,
    query: &'a Query,
    desk: &'a mut Desk,
    found: Option<Found>,
}

pub fn search<T: Tariff>(
    index: &Index,
    tariff: &T,
    query: &Query,
    desk: &mut Desk,
) -> Option<Found> {
    let mut search = Search { index, tariff, query, desk, found: None };
    search.ask_calendar();
    search.start();
    for _ in 0..query.changes {
        search.ride();
        search.change();
    }
    search.ride();
    search.clear();
    search.found
}

impl<T: Tariff> Search<'_, T> {
    fn ask_calendar(&mut self) {
        let trains = &self.index.timetable.trains;
        for (run, usable) in self.desk.usable.iter_mut().enumerate() {
            let train = &trains[run % trains.len()];
            *usable = self.query.can_use(train.code, train.features, run / trains.len());
        }
    }

    fn start(&mut self) {
        let ready = self.query.ready();
        for event in self.index.events_at(self.query.origin) {
            if event.leaves && event.time >= ready && self.desk.usable[usize::from(event.run)] {
                let total = self.tariff.start(u32::from(event.time - ready));
                self.desk.board(event.run, event.place, total);
            }
        }
    }

    // Boards what can be caught at the stations where somebody arrived in the round before.
    fn change(&mut self) {
        let mut stations = std::mem::take(&mut self.desk.stations);
        for station in stations.drain(..) {
            self.desk.is_marked[usize::from(station)] = false;
            let mut window = T::Window::default();
            for event in self.index.events_at(station) {
                let time = u32::from(event.time);
                if !event.leaves {
                    let total = self.desk.fresh[usize::from(event.place)];
                    if total != NONE {
                        self.tariff.arrive(&mut window, time, total);
                    }
                } else if self.desk.usable[usize::from(event.run)] {
                    let total = self.tariff.board(&mut window, time);
                    if total != NONE {
                        self.desk.board(event.run, event.place, total);
                    }
                }
            }
        }
        self.desk.stations = stations;
        for place in self.desk.fresh_places.drain(..) {
            self.desk.fresh[usize::from(place)] = NONE;
        }
    }

    // Rides on with every run that is boarded.
    fn ride(&mut self) {
        let mut runs = std::mem::take(&mut self.desk.runs);
        for run in runs.drain(..) {
            let run = usize::from(run);
            let from = std::mem::replace(&mut self.desk.from[run], NOWHERE);
            self.ride_run(from, self.index.runs[run]);
        }
        self.desk.runs = runs;
    }

    fn ride_run(&mut self, from: u16, run: Run) {
        let mut aboard = NONE;
        for place in usize::from(from)..usize::from(run.last) {
            let hop = self.index.hops[place];
            let boarded = std::mem::replace(&mut self.desk.boarded[place], NONE);
            if aboard != NONE {
                aboard = self.tariff.on_board(aboard, u32::from(hop.stand), 0);
            }
            aboard = aboard.min(boarded);
            if aboard == NONE {
                continue;
            }
            aboard = self.tariff.on_board(aboard, u32::from(hop.minutes), u32::from(hop.fare));
            if !self.reach(place + 1, aboard) {
                aboard = NONE;
            }
        }
    }

    // Arrives at the place, unless that is not worth following.
    fn reach(&mut self, place: usize, total: u32) -> bool {
        let desk = &mut *self.desk;
        let hopeless = |found: Found| self.tariff.is_hopeless(total, found.0);
        if total >= desk.best[place] || (desk.aims && self.found.is_some_and(hopeless)) {
            return false;
        }
        desk.best[place] = total;
        desk.fresh[place] = total;
        desk.fresh_places.push(place as u16);
        let station = self.index.stations[place];
        if station == self.query.destination {
            let minutes = u32::from(self.index.times[place] - self.query.ready());
            let new = (total, minutes);
            self.found = Some(self.found.map_or(new, |old| old.min(new)));
        }
        if !desk.is_marked[usize::from(station)] {
            desk.is_marked[usize::from(station)] = true;
            desk.stations.push(station);
        }
        true
    }

    fn clear(&mut self) {
        self.desk.best.fill(NONE);
        for place in self.desk.fresh_places.drain(..) {
            self.desk.fresh[usize::from(place)] = NONE;
        }
        for station in self.desk.stations.drain(..) {
            self.desk.is_marked[usize::from(station)] = false;
        }
    }
}
