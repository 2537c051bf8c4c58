//! Tanks in layers: the port beside the Rust's energies, layer by layer, in a plain sum.
use crate::calls::Caller;
use crate::compare::{floats, judge};
use crate::oracle::{self, QuantumSet, Tank};
use crate::random::Random;
use crate::sizes::SIDE;
use crate::states;
use crate::tally::Tally;

fn volume(g: &mut Random) -> f64 {
    match g.below(40) {
        0 => g.one_of(&[0.0, -0.0, -1.0, 1e30f64.next_up(), f64::NAN, f64::INFINITY]),
        1 => g.one_of(&[5e-324, 1e30, f64::MIN_POSITIVE]),
        _ => g.spread(1.0, 1e30),
    }
}

/// So many layers, now and then with a list of another length or a layer count that is not theirs.
pub fn of(g: &mut Random, n: usize, layers: usize) -> Tank {
    let mut t = Tank { layers, temperatures: vec![], fractions: vec![], densities: vec![], volumes: vec![] };
    for _ in 0..layers {
        let st = states::state(g, n, &[1.0; SIDE], &[3.0; SIDE], true);
        t.temperatures.push(states::temperature(g, true));
        t.fractions.extend(st.fractions);
        t.densities.extend(st.densities);
        t.volumes.push(volume(g));
    }
    match g.below(40) {
        0 => drop(t.temperatures.pop()),
        1 => t.fractions.push(0.5),
        2 => drop(t.densities.pop()),
        3 => t.volumes.push(1.0),
        4 => t.layers = g.one_of(&[0, 33, layers + 1, usize::MAX, usize::MAX / n + 1]),
        _ => {}
    }
    t
}

fn both(g: &mut Random, name: [&'static str; 2], case: u64, c: &mut Caller, tally: &mut Tally, s: &QuantumSet, t: &Tank) {
    let wanted = g.once_in(2);
    let out = if g.once_in(40) { g.below(5) } else { 3 };
    if let Some(number) = c.vrq_tank(s, t, wanted, out) {
        let expected = oracle::vrq_tank(s, t, wanted, out);
        judge(tally, name[0], case, c, 1, number, &expected, |e| floats("energies", &c.lent.out(0), e));
    }
    let out = if g.once_in(40) { g.below(8) } else { 6 };
    if let Some(number) = c.vrq_tank_ends(s, t, wanted, out) {
        let expected = oracle::vrq_tank_ends(s, t, wanted, out);
        judge(tally, name[1], case, c, 1, number, &expected, |e| floats("ends", &c.lent.out(0), e));
    }
}

pub fn run(count: u64, seed: u64, tally: &mut Tally) {
    let mut c = Caller::new(seed);
    for case in 0..count {
        let mut g = Random(seed.wrapping_mul(0x1000_0000_01b3).wrapping_add(case << 20));
        let lists = states::lists(&mut g, true);
        let Ok(mut set) = oracle::vrq_parameters(&lists, oracle::QUANTUM_SET) else { continue };
        let n = set.count;
        if g.once_in(6) {
            states::quantum_set_by_hand(&mut g, &mut set);
        }
        let layers = if g.once_in(20) { g.one_of(&[31, 32, 33]) } else { 1 + g.below(4) };
        let t = of(&mut g, n, layers);
        both(&mut g, ["vrq_tank", "vrq_tank_ends"], case, &mut c, tally, &set, &t);
    }
}

/// Arbitrary bits in the tank's lists, in a set that may have them too.
pub fn arbitrary(g: &mut Random, case: u64, c: &mut Caller, tally: &mut Tally, set: &QuantumSet, n: usize, spoil: impl Fn(&mut Random, &mut [f64])) {
    let layers = 1 + g.below(3);
    let mut t = of(g, n, layers);
    for list in [&mut t.temperatures, &mut t.fractions, &mut t.densities, &mut t.volumes] {
        spoil(g, list);
    }
    if g.once_in(25) {
        t.layers = g.next() as usize >> g.below(64);
    }
    both(g, ["fuzz vrq_tank", "fuzz vrq_tank_ends"], case, c, tally, set, &t);
}
