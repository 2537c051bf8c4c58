//! The exact run: the Rust text on fractions, each elementary call with the float run's answer, beside the two ends that the
//! port gives; for the constants that lie between two floats it takes their lower ends, their upper ends, and places between.
//! Small states, since a fraction grows with every operation.
use crate::calls::Caller;
use crate::compare::judge;
use crate::oracle::{self, State, Tank};
use crate::random::Random;
use crate::sizes::SIDE;
use crate::states::{self, Kind};
use crate::tally::Tally;
use ends::{Choice, F, Fraction};

/// The largest fraction's digits in bits.
#[derive(Default)]
struct Seen {
    bits: usize,
}

impl Seen {
    /// Whether each exact value lies within its two ends.
    fn enclosed(&mut self, results: &[F], ends: &[f64]) -> Result<(), String> {
        for (k, r) in results.iter().enumerate() {
            let Some(exact) = r.fraction() else {
                return Err(format!("value {k}: there are ends, and the exact run met a divisor of 0"));
            };
            self.bits = self.bits.max(exact.size());
            if !Fraction::of(ends[2 * k]).at_most(&exact) || !exact.at_most(&Fraction::of(ends[2 * k + 1])) {
                return Err(format!("value {k}: the exact one lies outside {:e} to {:e}", ends[2 * k], ends[2 * k + 1]));
            }
        }
        Ok(())
    }
}

/// The results of a two-ended call of the oracle, worked exactly too and held to the oracle's own ends.
fn exactly(tally: &mut Tally, case: u64, seen: &mut Seen, call: impl FnOnce() -> Result<Vec<F>, u8>) -> Result<Vec<F>, u8> {
    ends::work_exactly(true);
    let results = call();
    let within = match &results {
        Ok(list) => seen.enclosed(list, &list.iter().flat_map(|r| [r.low, r.high]).collect::<Vec<_>>()),
        Err(_) => Ok(()),
    };
    let number = results.as_ref().err().copied().unwrap_or(0);
    tally.note("oracle: exact run", number, within.is_ok(), || format!("case {case}: {}", within.unwrap_err()));
    results
}

fn quantum(g: &mut Random, case: u64, c: &mut Caller, tally: &mut Tally, seen: &mut Seen) {
    let n = g.one_of(&[1, 1, 1, 2]);
    let mut lists = states::lists_with(g, true, Kind::Usual, n);
    lists.order = vec![case as u8 % 3; n];
    let t = g.within(15.0, 300.0);
    let Ok(set) = oracle::vrq_parameters(&lists, oracle::QUANTUM_SET) else { return };
    let Ok((table, _)) = oracle::vrq_table(&set, t, oracle::TABLE_AND_COUNTS) else { return };
    let diameters = states::diameters(n, &table);
    let state = State { temperature: t, ..states::quiet_state(g, n, &[1.0; SIDE], &diameters) };
    let expected = exactly(tally, case, seen, || oracle::vrq_energies_enclosed(&set, &state, &table, true, 6));
    if let Some(number) = c.vrq_energies_ends(&set, &state, &table, true, 6) {
        judge(tally, "exact: vrq_energies_ends", case, c, 1, number, &expected, |r| seen.enclosed(r, &c.lent.out(0)));
    }
    if case % 8 == 0 {
        let two = |x: &[f64]| [x, x].concat();
        let temperatures = vec![t, (t + 1.0).min(300.0)];
        let tank = Tank { layers: 2, temperatures, fractions: two(&state.fractions), densities: two(&state.densities), volumes: vec![3e9, 7e8] };
        let expected = exactly(tally, case, seen, || oracle::vrq_tank_enclosed(&set, &tank, true, 6));
        if let Some(number) = c.vrq_tank_ends(&set, &tank, true, 6) {
            judge(tally, "exact: vrq_tank_ends", case, c, 1, number, &expected, |r| seen.enclosed(r, &c.lent.out(0)));
        }
    }
    let (i, j) = (0, n - 1);
    let Ok((radii, _)) = oracle::vrq_radii(&set, i, j, t, [6, 3]) else { return };
    let expected = exactly(tally, case, seen, || oracle::vrq_diameter_enclosed(&set, i, j, t, [radii[0], radii[2]], 2));
    if let Some(number) = c.vrq_diameter_ends(&set, i, j, t, [radii[0], radii[2]], 2) {
        judge(tally, "exact: vrq_diameter_ends", case, c, 1, number, &expected, |r| seen.enclosed(r, &c.lent.out(0)));
    }
}

fn vr_mie(g: &mut Random, case: u64, c: &mut Caller, tally: &mut Tally, seen: &mut Seen) {
    let n = g.one_of(&[1, 1, 1, 2]);
    let lists = states::lists_with(g, false, Kind::Usual, n);
    let t = g.within(150.0, 600.0);
    let Ok(set) = oracle::vr_parameters(&lists, oracle::MIE_SET) else { return };
    let Ok(diameters) = oracle::vr_diameters(&set, t, n) else { return };
    let state = State { temperature: t, ..states::quiet_state(g, n, &lists.m, &diameters) };
    let chain = case % 2 == 1;
    let expected = exactly(tally, case, seen, || oracle::vr_dispersion_enclosed(&set, &state, &diameters, chain, 2));
    if let Some(number) = c.vr_dispersion_ends(&set, &state, &diameters, chain, 2) {
        judge(tally, "exact: vr_dispersion_ends", case, c, 1, number, &expected, |r| seen.enclosed(r, &c.lent.out(0)));
    }
    let Ok(r0) = oracle::vr_radius(&set, 0, n - 1, t) else { return };
    let expected = exactly(tally, case, seen, || oracle::vr_diameter_enclosed(&set, 0, n - 1, t, r0, 2));
    if let Some(number) = c.vr_diameter_ends(&set, 0, n - 1, t, r0, 2) {
        judge(tally, "exact: vr_diameter_ends", case, c, 1, number, &expected, |r| seen.enclosed(r, &c.lent.out(0)));
    }
}

pub fn run(count: u64, seed: u64, tally: &mut Tally) {
    num_dual::use_functions(&oracle::PORT);
    num_dual_ended::use_functions(&oracle::ENDED);
    let mut c = Caller::new(seed);
    let mut seen = Seen::default();
    for case in 0..count {
        for choice in [Choice::Low, Choice::High, Choice::Apart(case)] {
            ends::choose(choice);
            let mut g = Random(seed.wrapping_mul(0xe4ac7).wrapping_add(case << 20));
            quantum(&mut g, case, &mut c, tally, &mut seen);
            vr_mie(&mut g, case, &mut c, tally, &mut seen);
        }
    }
    ends::work_exactly(false);
    println!("the exact run's largest fraction has {} bits", seen.bits);
}
