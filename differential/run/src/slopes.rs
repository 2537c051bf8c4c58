//! The quantum chain with slopes: the port beside the Rust on dual numbers, and its values beside the port's own table and energies.
use crate::calls::Caller;
use crate::compare::{floats, judge};
use crate::oracle::{self, QuantumSet, Slopes, State};
use crate::random::Random;
use crate::states;
use crate::tally::Tally;

fn slope(g: &mut Random) -> f64 {
    match g.below(60) {
        0 => g.odd(),
        1..4 => g.one_of(&[0.0, -0.0, 1.0, -1.0, 5e-324, 1e300]),
        4..6 => g.spread(1e-12, 1e12),
        _ => g.within(-1.0, 1.0),
    }
}

/// Slopes for a state, now and then in a list of another length.
fn of(g: &mut Random, s: &State) -> Slopes {
    let quiet = g.once_in(4);
    let mut list = |n: usize| (0..n).map(|_| if quiet { g.within(-1.0, 1.0) } else { slope(g) }).collect::<Vec<f64>>();
    let (mut fractions, mut densities) = (list(s.fractions.len()), list(s.densities.len()));
    match g.below(40) {
        0 => drop(fractions.pop()),
        1 => fractions.push(0.5),
        2 => drop(densities.pop()),
        3 => densities.push(0.5),
        _ => {}
    }
    Slopes { temperature: if quiet { 1.0 } else { slope(g) }, fractions, densities }
}

fn one(g: &mut Random, name: &'static str, case: u64, c: &mut Caller, tally: &mut Tally, set: &QuantumSet, s: &State, d: &Slopes) {
    let wanted = g.once_in(2);
    let out = if g.once_in(40) { g.below(9) } else { 6 };
    if let Some(number) = c.vrq_energies_slopes(set, s, d, wanted, out) {
        let expected = oracle::vrq_energies_slopes(set, s, d, wanted, out);
        judge(tally, name, case, c, 1, number, &expected, |e| floats("energies and slopes", &c.lent.out(0), e));
    }
}

pub fn run(count: u64, seed: u64, tally: &mut Tally) {
    num_dual::use_functions(&oracle::PORT);
    let mut c = Caller::new(seed);
    for case in 0..count {
        let mut g = Random(seed.wrapping_mul(0x1000_0000_01b3).wrapping_add(case << 20) ^ 0x510e);
        let lists = states::lists(&mut g, true);
        let Ok(mut set) = oracle::vrq_parameters(&lists, oracle::QUANTUM_SET) else { continue };
        let n = set.count;
        if g.once_in(6) {
            states::quantum_set_by_hand(&mut g, &mut set);
        }
        let s = states::state(&mut g, n, &lists.m, &lists.sigma, true);
        let d = of(&mut g, &s);
        one(&mut g, "vrq_energies_slopes", case, &mut c, tally, &set, &s, &d);
    }
}

/// Arbitrary bits in the lists and slopes, in a set that may have them too.
pub fn arbitrary(g: &mut Random, case: u64, c: &mut Caller, tally: &mut Tally, set: &QuantumSet, s: &State, spoil: impl Fn(&mut Random, &mut [f64])) {
    let mut d = of(g, s);
    spoil(g, &mut d.fractions);
    spoil(g, &mut d.densities);
    one(g, "fuzz vrq_energies_slopes", case, c, tally, set, s, &d);
}
