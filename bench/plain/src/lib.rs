// A timetable, read once with all its checks, and a search by rounds: plain Rust with no dependencies.
pub mod fields;
pub mod index;
pub mod query;
pub mod rounds;
pub mod tariffs;
pub mod timetable;
