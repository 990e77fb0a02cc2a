// `plain check FILE` looks a timetable over; `plain search FILE [--whole]` answers the queries of standard input with
// their totals. With `--whole` it also follows what cannot be cheaper than the best connection so far.
use plain::index::Index;
use plain::query::{Asked, Query};
use plain::rounds::{Desk, search};
use plain::tariffs::{Fares, Minutes, Waits};
use plain::timetable::Timetable;
use std::io::{self, BufRead, BufWriter, Write};
use std::process::ExitCode;

fn answer(index: &Index, desk: &mut Desk, query: &Query, out: &mut impl Write) -> io::Result<()> {
    if let Some(number) = query.refusal() {
        return writeln!(out, "refused {number}");
    }
    let found = match query.asked {
        Asked::Minutes(penalty) => search(index, &Minutes { penalty }, query, desk),
        Asked::Fares => search(index, &Fares, query, desk),
        Asked::Waits => search(index, &Waits, query, desk),
    };
    match (found, query.asked) {
        (None, _) => writeln!(out, "refused 17"),
        (Some((total, _)), Asked::Minutes(_)) => writeln!(out, "cost {total} minutes"),
        (Some((total, _)), Asked::Waits) => writeln!(out, "cost {total} minutes of waiting"),
        (Some((total, minutes)), Asked::Fares) => {
            writeln!(out, "cost {total} cents {minutes} minutes")
        }
    }
}

fn main() -> io::Result<ExitCode> {
    let words: Vec<String> = std::env::args().skip(1).collect();
    let (command, file) = match &words[..] {
        [command, file, ..] => (command.as_str(), file),
        _ => panic!("plain check FILE, or plain search FILE [--whole]"),
    };
    let table = match Timetable::read(&std::fs::read(file)?) {
        Ok(table) => table,
        Err(fault) => {
            println!("{file}:{fault}");
            return Ok(ExitCode::FAILURE);
        }
    };
    if command == "check" {
        println!("{} trains, {} stops", table.trains.len(), table.stops.len());
        return Ok(ExitCode::SUCCESS);
    }
    let index = Index::new(table);
    let mut desk = Desk::new(&index, words.get(2).is_none());
    let mut out = BufWriter::new(io::stdout().lock());
    for line in io::stdin().lock().lines() {
        let line = line?;
        let query = Query::read(&line).expect("a query");
        answer(&index, &mut desk, &query, &mut out)?;
    }
    out.flush()?;
    Ok(ExitCode::SUCCESS)
}
