// `graph FILE` answers the queries of standard input, all of one kind of tariff, with their totals, by the shortest paths
// of petgraph. It tells on standard error how long it built the graph, and how long it answered.
mod clock;
mod costs;
mod network;

use clock::processor_seconds;
use costs::{Cost, FareCost, MinuteCost, WaitCost, fare_cost, minute_cost, wait_cost};
use network::{Leg, Network};
use plain::query::{Asked, Query};
use plain::timetable::Timetable;
use std::io::{self, BufRead, BufWriter, Write};

// Answers the queries in their order.
fn answer_all<C: Cost, F: Fn(&Leg) -> C>(
    table: &Timetable,
    queries: &[Query],
    cost: impl Fn(&Query) -> F,
    words: impl Fn(C) -> String,
) -> io::Result<()> {
    let started = processor_seconds();
    let most_changes = queries.iter().map(|query| query.changes.min(15)).max().unwrap_or(0);
    let mut network = Network::new::<C>(table, usize::from(most_changes) + 1);
    let built = processor_seconds();
    let mut out = BufWriter::new(io::stdout().lock());
    for query in queries {
        match query.refusal() {
            Some(number) => writeln!(out, "refused {number}")?,
            None => match network.cheapest(table, query, cost(query)) {
                Some(found) => writeln!(out, "cost {}", words(found))?,
                None => writeln!(out, "refused 17")?,
            },
        }
    }
    out.flush()?;
    eprintln!("{} {}", built - started, processor_seconds() - built);
    Ok(())
}

fn penalty(query: &Query) -> u32 {
    match query.asked {
        Asked::Minutes(penalty) => penalty,
        _ => panic!("all queries of a batch have one kind of tariff"),
    }
}

fn main() -> io::Result<()> {
    let file = std::env::args().nth(1).expect("graph FILE");
    let Ok(table) = Timetable::read(&std::fs::read(&file)?) else {
        panic!("{file} is no timetable");
    };
    let mut queries = Vec::new();
    for line in io::stdin().lock().lines() {
        queries.push(Query::read(&line?).expect("a query"));
    }
    let minutes = |query: &Query| {
        let penalty = penalty(query);
        move |leg: &Leg| minute_cost(leg, penalty)
    };
    match queries.first().map(|query| query.asked) {
        None => Ok(()),
        Some(Asked::Minutes(_)) => answer_all(&table, &queries, minutes, |cost: MinuteCost| {
            format!("{} minutes", cost.0)
        }),
        Some(Asked::Fares) => answer_all(&table, &queries, |_| fare_cost, |cost: FareCost| {
            format!("{} cents {} minutes", cost.fare, cost.minutes)
        }),
        Some(Asked::Waits) => answer_all(&table, &queries, |_| wait_cost, |cost: WaitCost| {
            format!("{} minutes of waiting", cost.0)
        }),
    }
}
