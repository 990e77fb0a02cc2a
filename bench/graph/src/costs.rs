// What a path costs under each tariff: an ordered number, or two, that the edges' costs are added to.
use crate::network::{Kind, Leg};
use petgraph::algo::Measure;
use std::ops::Add;

pub trait Cost: Measure + Copy {
    // Whether the wait for a change is the sum of waits from each departure to the next.
    const WAITS_ADD_UP: bool;
}

#[derive(Clone, Copy, Debug, Default, PartialEq, PartialOrd)]
pub struct MinuteCost(pub u32);

#[derive(Clone, Copy, Debug, Default, PartialEq, PartialOrd)]
pub struct FareCost {
    pub fare: u32,
    pub minutes: u32,
}

#[derive(Clone, Copy, Debug, Default, PartialEq, PartialOrd)]
pub struct WaitCost(pub u32);

impl Add for MinuteCost {
    type Output = Self;

    fn add(self, other: Self) -> Self {
        MinuteCost(self.0 + other.0)
    }
}

impl Add for FareCost {
    type Output = Self;

    fn add(self, other: Self) -> Self {
        FareCost { fare: self.fare + other.fare, minutes: self.minutes + other.minutes }
    }
}

// The longest wait of both: it never falls along a path, which is all that the search asks of a sum.
impl Add for WaitCost {
    type Output = Self;

    fn add(self, other: Self) -> Self {
        WaitCost(self.0.max(other.0))
    }
}

impl Cost for MinuteCost {
    const WAITS_ADD_UP: bool = true;
}

impl Cost for FareCost {
    const WAITS_ADD_UP: bool = true;
}

impl Cost for WaitCost {
    const WAITS_ADD_UP: bool = false;
}

pub fn minute_cost(leg: &Leg, penalty: u32) -> MinuteCost {
    let extra = if leg.kind == Kind::Change { penalty } else { 0 };
    MinuteCost(u32::from(leg.minutes) + extra)
}

pub fn fare_cost(leg: &Leg) -> FareCost {
    FareCost { fare: u32::from(leg.fare), minutes: u32::from(leg.minutes) }
}

pub fn wait_cost(leg: &Leg) -> WaitCost {
    match leg.kind {
        Kind::Start | Kind::Change => WaitCost(u32::from(leg.minutes)),
        _ => WaitCost(0),
    }
}
