// The time-expanded graph of a timetable, with a layer for each number of changes: a node for each departure and for each
// arrival of a run, and one for each station where all arrivals end.
//
// The graph has the runs of all three shifts and all layers, so it is made once. A query adds its own source, and sees
// only the runs that it may use and the layers that it allows.
use crate::costs::Cost;
use petgraph::algo::dijkstra;
use petgraph::graph::{DiGraph, NodeIndex};
use petgraph::visit::{EdgeFiltered, EdgeRef};
use plain::query::Query;
use plain::timetable::{Stop, Timetable};

#[derive(Clone, Copy, PartialEq)]
pub enum Kind {
    // from the query's minute to a departure of the first layer
    Start,
    // from a departure to the arrival at the next stop
    Board,
    // from an arrival to the next arrival of the same run
    Stay,
    // from a departure to the next at the station
    Wait,
    // from an arrival to a departure of the next layer
    Change,
    // from an arrival to its station
    End,
}

#[derive(Clone, Copy)]
pub struct Leg {
    pub kind: Kind,
    pub minutes: u16,
    pub fare: u16,
    // the run of a departure
    run: u16,
}

pub struct Network {
    graph: DiGraph<(), Leg>,
    layers: usize,
    places: usize,
    // for each station its departures in time: minute, place and run
    departures: Vec<Vec<(u16, usize, u16)>>,
    waits_add_up: bool,
}

const STATIONS: usize = 1024;

impl Network {
    // With so many layers, and as costs of this kind need it.
    pub fn new<C: Cost>(table: &Timetable, layers: usize) -> Network {
        let rows = table.stops.len();
        let places = 3 * rows;
        let mut network = Network {
            graph: DiGraph::with_capacity(2 * layers * places + STATIONS + 1, 0),
            layers,
            places,
            departures: departures(table),
            waits_add_up: C::WAITS_ADD_UP,
        };
        for _ in 0..2 * layers * places + STATIONS {
            network.graph.add_node(());
        }
        for layer in 0..layers {
            network.add_runs(table, layer);
            network.add_waits(layer);
        }
        for layer in 1..layers {
            network.add_changes(table, layer);
        }
        network
    }

    fn departure(&self, layer: usize, place: usize) -> NodeIndex {
        NodeIndex::new(2 * (layer * self.places + place))
    }

    fn arrival(&self, layer: usize, place: usize) -> NodeIndex {
        NodeIndex::new(2 * (layer * self.places + place) + 1)
    }

    fn station(&self, station: u16) -> NodeIndex {
        NodeIndex::new(2 * self.layers * self.places + usize::from(station))
    }

    fn link(&mut self, from: NodeIndex, to: NodeIndex, leg: Leg) {
        self.graph.add_edge(from, to, leg);
    }

    fn add_runs(&mut self, table: &Timetable, layer: usize) {
        for (run, first, stops) in runs(table) {
            for (i, pair) in stops.windows(2).enumerate() {
                let place = first + i;
                let (leave, fare) = pair[0].depart.expect("no last stop");
                let reach = pair[1].arrive.expect("no first stop");
                let end = self.arrival(layer, place + 1);
                let hop = Leg { kind: Kind::Board, minutes: reach - leave, fare, run };
                self.link(self.departure(layer, place), end, hop);
                if let Some(arrive) = pair[0].arrive {
                    let stay = Leg { kind: Kind::Stay, minutes: reach - arrive, fare, run };
                    self.link(self.arrival(layer, place), end, stay);
                }
                let out = Leg { kind: Kind::End, minutes: 0, fare: 0, run };
                self.link(end, self.station(pair[1].station), out);
            }
        }
    }

    // From each departure of a station to the next, where waits add up.
    fn add_waits(&mut self, layer: usize) {
        if !self.waits_add_up {
            return;
        }
        for station in 0..STATIONS {
            for i in 1..self.departures[station].len() {
                let (from, to) = (self.departures[station][i - 1], self.departures[station][i]);
                let leg = Leg { kind: Kind::Wait, minutes: to.0 - from.0, fare: 0, run: to.2 };
                self.link(self.departure(layer, from.1), self.departure(layer, to.1), leg);
            }
        }
    }

    // From each arrival of the layer before to the first departure that can be caught, or to all where waits do not add up.
    fn add_changes(&mut self, table: &Timetable, layer: usize) {
        for (_, first, stops) in runs(table) {
            for (i, stop) in stops.iter().enumerate() {
                let Some(arrive) = stop.arrive else { continue };
                let arrive = arrive + midnight(first + i, self.places);
                let station = usize::from(stop.station);
                let all = self.departures[station].len();
                let caught = self.departures[station].partition_point(|d| d.0 < arrive);
                let end = if self.waits_add_up { all.min(caught + 1) } else { all };
                for n in caught..end {
                    let (minute, place, run) = self.departures[station][n];
                    let leg = Leg { kind: Kind::Change, minutes: minute - arrive, fare: 0, run };
                    let from = self.arrival(layer - 1, first + i);
                    self.link(from, self.departure(layer, place), leg);
                }
            }
        }
    }

    // The cost of a cheapest path of the query, over the runs that it may use.
    pub fn cheapest<C: Cost>(
        &mut self,
        table: &Timetable,
        query: &Query,
        cost: impl Fn(&Leg) -> C,
    ) -> Option<C> {
        let usable: Vec<bool> = (0..3)
            .flat_map(|shift| {
                let can_use = move |t: &plain::timetable::Train| {
                    query.can_use(t.code, t.features, shift)
                };
                table.trains.iter().map(can_use)
            })
            .collect();
        let source = self.graph.add_node(());
        self.add_starts(source, query);
        let past = self.departure(usize::from(query.changes) + 1, 0);
        let goal = self.station(query.destination);
        let seen = EdgeFiltered::from_fn(&self.graph, |edge| match edge.weight().kind {
            Kind::Board => usable[usize::from(edge.weight().run)],
            Kind::Change => edge.target() < past,
            _ => true,
        });
        let costs = dijkstra(&seen, source, Some(goal), |edge| cost(edge.weight()));
        let found = costs.get(&goal).copied();
        self.graph.remove_node(source);
        found
    }

    fn add_starts(&mut self, source: NodeIndex, query: &Query) {
        let ready = query.ready();
        let station = usize::from(query.origin);
        let all = self.departures[station].len();
        let caught = self.departures[station].partition_point(|d| d.0 < ready);
        let end = if self.waits_add_up { all.min(caught + 1) } else { all };
        for n in caught..end {
            let (minute, place, run) = self.departures[station][n];
            let leg = Leg { kind: Kind::Start, minutes: minute - ready, fare: 0, run };
            self.link(source, self.departure(0, place), leg);
        }
    }
}

// The midnight of a place's shift, in minutes from midnight of the day before the query's.
fn midnight(place: usize, places: usize) -> u16 {
    (place / (places / 3)) as u16 * 1440
}

// The runs of all shifts: their number, first place and stops.
fn runs(table: &Timetable) -> impl Iterator<Item = (u16, usize, &[Stop])> {
    (0..3).flat_map(move |shift| {
        table.trains.iter().enumerate().map(move |(n, train)| {
            let run = shift * table.trains.len() + n;
            let stops = &table.stops[train.first..train.first + train.count];
            (run as u16, shift * table.stops.len() + train.first, stops)
        })
    })
}

fn departures(table: &Timetable) -> Vec<Vec<(u16, usize, u16)>> {
    let mut departures = vec![Vec::new(); STATIONS];
    for (run, first, stops) in runs(table) {
        for (i, stop) in stops.iter().enumerate() {
            if let Some((leave, _)) = stop.depart {
                let minute = leave + midnight(first + i, 3 * table.stops.len());
                departures[usize::from(stop.station)].push((minute, first + i, run));
            }
        }
    }
    for station in &mut departures {
        station.sort();
    }
    departures
}
