//! The desk: submissions and calls of serve in any order, beside a round of the oracle's own whose queries the Rust works; desks of
//! arbitrary bits.
use crate::calls::Caller;
use crate::compare::{floats, judge};
use crate::oracle::{self, QuantumSet, State};
use crate::random::Random;
use crate::sizes::{DESK_BYTES, DESK_FLOATS, DESK_PLACES, SHEET, SIDE, TABLE, at};
use crate::states;
use crate::tally::Tally;

const PLACE_FLOATS: usize = DESK_FLOATS / DESK_PLACES;
const PLACE_BYTES: usize = DESK_BYTES / DESK_PLACES;

/// The desk's lists, floats by their patterns.
#[derive(Clone)]
pub struct Desk {
    pub floats: Vec<u64>,
    pub bytes: Vec<u8>,
}

impl Desk {
    fn arbitrary(g: &mut Random) -> Desk {
        let floats = (0..DESK_FLOATS).map(|_| g.pattern()).collect();
        Desk { floats, bytes: (0..DESK_BYTES).map(|_| if g.once_in(2) { g.below(13) as u8 } else { g.next() as u8 }).collect() }
    }

    /// Whether another has the same bits but for place k and the place served last.
    fn same_beside(&self, k: usize, other: &Desk) -> bool {
        let (f, b) = (PLACE_FLOATS * k, PLACE_BYTES * k);
        let last = DESK_BYTES - 1;
        self.floats[..f] == other.floats[..f]
            && self.floats[f + PLACE_FLOATS..] == other.floats[f + PLACE_FLOATS..]
            && self.bytes[..b] == other.bytes[..b]
            && self.bytes[b + PLACE_BYTES..last] == other.bytes[b + PLACE_BYTES..last]
    }

    /// The place that is next, by the bytes alone.
    fn next(&self) -> Option<usize> {
        let waits = |k: usize| {
            let b = &self.bytes[PLACE_BYTES * k..];
            (1..=SIDE as u8).contains(&b[0]) && b[1] < b[0] && b[2] < b[0]
        };
        let last = self.bytes[DESK_BYTES - 1].min(15) as usize;
        (1..=DESK_PLACES).map(|i| (last + i) % DESK_PLACES).find(|&k| waits(k))
    }
}

struct Query {
    set: QuantumSet,
    state: State,
    wanted: bool,
    units: usize,
    calls: usize,
}

#[derive(PartialEq)]
enum Told {
    Idle,
    Worked(usize),
    Finished(usize, Result<[f64; 3], u8>),
}

impl Query {
    /// One of few components, or now and then of many; with entries by hand, or with something that the door turns down.
    fn any(g: &mut Random) -> Query {
        let most = if g.once_in(20) { SIDE } else { 3 };
        let mut set = loop {
            match oracle::vrq_parameters(&states::lists(g, true), oracle::QUANTUM_SET) {
                Ok(set) if set.count <= most => break set,
                _ => {}
            }
        };
        let n = set.count;
        if g.once_in(5) {
            states::quantum_set_by_hand(g, &mut set);
        }
        let mut state = states::state(g, n, &[1.0; SIDE], &[3.0; SIDE], true);
        match g.below(30) {
            0 => set.count = g.one_of(&[0, SIDE + 1, usize::MAX, n + 1]),
            1 => drop(set.sheets.pop()),
            2 => set.orders.iter_mut().take(at(0, n, 0)).for_each(|b| *b = 3 + g.below(253) as u8),
            3 => state.temperature = g.odd(),
            4 => state.fractions.push(0.5),
            5 => state.densities.iter_mut().for_each(|x| *x = g.odd()),
            6 => state.densities = vec![0.0; n],
            _ => {}
        }
        Query { set, state, wanted: g.once_in(2), units: 0, calls: 0 }
    }

    /// What the direct calls would turn down with 1, 4 or 2.
    fn door(&self) -> Result<(), u8> {
        match oracle::vrq_energies(&self.set, &self.state, &[3.0; TABLE], false, 3) {
            Err(n @ (1 | 2 | 4)) => Err(n),
            _ => Ok(()),
        }
    }

    /// Whether the pair in hand is refused with 6: as the pair of a set of one component.
    fn outside(&self) -> bool {
        let (i, j) = (self.units / self.set.count, self.units % self.set.count);
        let mut one = self.set.clone();
        one.count = 1;
        (0..6).for_each(|k| one.sheets[k * SHEET] = self.set.sheets[at(k * SHEET, i, j)]);
        one.orders[0] = self.set.orders[at(0, i, j)];
        oracle::vrq_table(&one, self.state.temperature, oracle::TABLE_AND_COUNTS).err() == Some(6)
    }

    fn directly(&self) -> Result<[f64; 3], u8> {
        let (table, _) = oracle::vrq_table(&self.set, self.state.temperature, oracle::TABLE_AND_COUNTS)?;
        oracle::vrq_energies(&self.set, &self.state, &table, self.wanted, 3)
    }

    fn unit(&self, k: usize) -> Told {
        if self.outside() {
            Told::Finished(k, Err(6))
        } else if self.units + 1 == self.set.count * self.set.count {
            Told::Finished(k, self.directly())
        } else {
            Told::Worked(k)
        }
    }
}

/// A desk and what the oracle knows of it.
struct Pages {
    desk: Desk,
    places: Vec<Option<Query>>,
    last: usize,
}

fn wrong(what: &str) -> Result<(), String> {
    Err(what.into())
}

/// What `serve` wrote, against what it had to tell; the desk's lists stand before.
fn told(c: &Caller, wanted: &Told) -> Result<(), String> {
    let (outcome, place, number) = (c.lent.out::<u8>(3)[0], c.lent.out::<usize>(2)[0], c.lent.out::<u8>(1)[0]);
    let kept = |k: &[usize]| k.iter().all(|&k| c.lent.kept_from_end(k));
    match wanted {
        Told::Idle if outcome == 0 && kept(&[0, 1, 2, 4, 5]) => Ok(()),
        Told::Worked(_) if outcome == 1 && kept(&[0, 1, 2]) => Ok(()),
        Told::Finished(k, Err(n)) if (outcome, place, number) == (2, *k, *n) && kept(&[0]) => Ok(()),
        Told::Finished(k, Ok(e)) if (outcome, place, number) == (2, *k, 0) => floats("energies", &c.lent.out(0), e),
        _ => Err(format!("tells outcome {outcome}, place {place}, number {number}")),
    }
}

impl Pages {
    fn new(g: &mut Random, case: u64, c: &mut Caller, tally: &mut Tally) -> Option<Pages> {
        let desk = Desk::arbitrary(g);
        let number = c.desk_begin(&desk)?;
        judge(tally, "desk_begin", case, c, 2, number, &Ok(()), |_| {
            let mut bytes = vec![0; DESK_BYTES];
            bytes[DESK_BYTES - 1] = 15;
            if c.lent.kept_from_end(1) && c.lent.out::<u8>(0) == bytes { Ok(()) } else { wrong("is not begun empty") }
        });
        let desk = Desk { floats: desk.floats, bytes: c.lent.out(0) };
        Some(Pages { desk, places: (0..DESK_PLACES).map(|_| None).collect(), last: DESK_PLACES - 1 })
    }

    fn submit(&mut self, g: &mut Random, case: u64, c: &mut Caller, tally: &mut Tally) -> Option<()> {
        let q = Query::any(g);
        let free = self.places.iter().position(Option::is_none).ok_or(17);
        let expected = q.door().and(free);
        let number = c.desk_submit(&self.desk, &q.set, &q.state, q.wanted)?;
        let after = Desk { floats: c.lent.out(2), bytes: c.lent.out(1) };
        judge(tally, "desk_submit", case, c, 3, number, &expected, |k| match c.lent.out::<usize>(0)[0] {
            told if told != *k => Err(format!("tells place {told}, expected {k}")),
            _ if !after.same_beside(*k, &self.desk) => wrong("changed another place"),
            _ => Ok(()),
        });
        self.desk = after;
        if let Ok(k) = expected {
            self.places[k] = Some(q);
        }
        Some(())
    }

    fn serve(&mut self, g: &mut Random, case: u64, c: &mut Caller, tally: &mut Tally) -> Option<()> {
        let out = if g.once_in(30) { g.below(6) } else { 3 };
        let next = (1..=DESK_PLACES).map(|i| (self.last + i) % DESK_PLACES).find(|&k| self.places[k].is_some());
        let unit = next.map_or(Told::Idle, |k| self.places[k].as_ref().unwrap().unit(k));
        let expected = if out == 3 { Ok(unit) } else { Err(1) };
        let number = c.desk_serve(&self.desk, out)?;
        let after = Desk { floats: c.lent.out(5), bytes: c.lent.out(4) };
        judge(tally, "desk_serve", case, c, 6, number, &expected, |unit| {
            if next.is_some_and(|k| !after.same_beside(k, &self.desk)) {
                return wrong("changed another place");
            }
            told(c, unit)
        });
        self.desk = after;
        let Ok(unit) = expected else { return Some(()) };
        self.places.iter_mut().flatten().for_each(|q| q.calls += 1);
        match unit {
            Told::Idle => {}
            Told::Worked(k) => {
                self.last = k;
                self.places[k].as_mut().unwrap().units += 1;
            }
            Told::Finished(k, answer) => {
                self.last = k;
                let q = self.places[k].take().unwrap();
                let calls = DESK_PLACES * q.set.count * q.set.count;
                let name = "desk, finished";
                tally.note(name, answer.err().unwrap_or(0), q.calls <= calls, || format!("case {case}: finished after {} calls", q.calls));
            }
        }
        Some(())
    }
}

/// Serves a desk of any bits: it ends, tells one of the three, and touches the next place alone. A state that no door has seen may be
/// finished with 2.
fn served(name: &'static str, case: u64, c: &mut Caller, tally: &mut Tally, desk: &mut Desk) -> Option<()> {
    let (next, number) = (desk.next(), c.desk_serve(desk, 3)?);
    let after = Desk { floats: c.lent.out(5), bytes: c.lent.out(4) };
    judge(tally, name, case, c, 6, number, &Ok(()), |_| match (next, c.lent.out::<u8>(3)[0]) {
        (None, 0) => told(c, &Told::Idle),
        (Some(k), _) if !after.same_beside(k, desk) || after.bytes[DESK_BYTES - 1] as usize != k => wrong("changed another place"),
        (Some(k), 1) => told(c, &Told::Worked(k)),
        (Some(k), 2) if c.lent.out::<usize>(2)[0] == k && [0, 2, 6, 7].contains(&c.lent.out::<u8>(1)[0]) => Ok(()),
        _ => wrong("tells another thing"),
    });
    *desk = after;
    Some(())
}

/// Lists of the desk of other lengths: 1 of each call, and nothing changed.
fn lengths(g: &mut Random, case: u64, c: &mut Caller, tally: &mut Tally, desk: &Desk) -> Option<()> {
    let mut other = desk.clone();
    let (floats, bytes) = (g.one_of(&[DESK_FLOATS - 1, DESK_FLOATS + 1, 0, SHEET]), g.one_of(&[DESK_BYTES - 1, DESK_BYTES + 1, 0, SHEET]));
    match g.below(3) {
        0 => other.floats.resize(floats, 0),
        1 => other.bytes.resize(bytes, 0),
        _ => (other.floats, other.bytes) = (vec![1; floats], vec![1; bytes]),
    }
    let number = c.desk_begin(&other)?;
    judge::<()>(tally, "desk_begin", case, c, 2, number, &Err(1), |_| Ok(()));
    let q = Query::any(g);
    let number = c.desk_submit(&other, &q.set, &q.state, q.wanted)?;
    judge::<()>(tally, "desk_submit", case, c, 3, number, &Err(1), |_| Ok(()));
    let number = c.desk_serve(&other, 3)?;
    judge::<()>(tally, "desk_serve", case, c, 6, number, &Err(1), |_| Ok(()));
    Some(())
}

/// Calls in any order at one desk, and then at what is left of it with arbitrary bits put in.
fn one(g: &mut Random, case: u64, c: &mut Caller, tally: &mut Tally) -> Option<()> {
    let mut pages = Pages::new(g, case, c, tally)?;
    let rarely = 3 + 9 * g.below(3);
    for _ in 0..400 {
        if g.once_in(rarely) { pages.submit(g, case, c, tally)? } else { pages.serve(g, case, c, tally)? }
    }
    lengths(g, case, c, tally, &pages.desk)?;
    let mut desk = pages.desk;
    let one_in = g.one_of(&[2, 20, 200, 2000]);
    desk.floats.iter_mut().for_each(|x| *x = if g.once_in(one_in) { g.pattern() } else { *x });
    desk.bytes.iter_mut().for_each(|x| *x = if g.once_in(one_in) { g.next() as u8 } else { *x });
    let mut nothing = Desk::arbitrary(g);
    for _ in 0..40 {
        served("fuzz desk_serve", case, c, tally, &mut desk)?;
        served("fuzz desk_serve", case, c, tally, &mut nothing)?;
    }
    let q = Query::any(g);
    let expected = q.door();
    let number = c.desk_submit(&nothing, &q.set, &q.state, q.wanted)?;
    judge(tally, "fuzz desk_submit", case, c, 3, if number == 17 && expected.is_ok() { 0 } else { number }, &expected, |_| Ok(()));
    Some(())
}

pub fn run(desks: u64, seed: u64, tally: &mut Tally) {
    let mut c = Caller::new(seed);
    for case in 0..desks {
        let mut g = Random(seed.wrapping_mul(0x1000_0000_01b3).wrapping_add(case << 24));
        if one(&mut g, case, &mut c, tally).is_none() {
            return;
        }
    }
}
