//! Arbitrary bits, lengths and counts through the boundary: each call ends, touches nothing but its outputs, and answers as the oracle.
use crate::calls::Caller;
use crate::cards;
use crate::compare::{bytes, floats, judge};
use crate::oracle::{self, Lists, MieSet, QuantumSet, State};
use crate::random::Random;
use crate::sizes::{SIDE, TABLE};
use crate::slopes;
use crate::states;
use crate::tally::Tally;
use crate::tank;

/// Each entry replaced with a chance of one in `one_in`.
fn scatter(g: &mut Random, list: &mut [f64], one_in: usize) {
    for x in list {
        if g.once_in(one_in) {
            *x = [f64::from_bits(g.nan()), g.odd(), g.bits(), g.odd()][g.below(4)];
        }
    }
}
fn scatter_bytes(g: &mut Random, list: &mut [u8], one_in: usize) {
    for x in list {
        if g.once_in(one_in) {
            *x = if g.once_in(2) { g.below(4) as u8 } else { g.next() as u8 };
        }
    }
}
fn stretch<T: Copy>(g: &mut Random, list: &mut Vec<T>, fill: T) {
    if g.once_in(25) {
        let n = if g.once_in(2) { g.below(12) } else { g.below(600) };
        list.resize(n, fill);
    }
}
fn count(g: &mut Random, right: usize) -> usize {
    match g.below(25) {
        0 => g.below(SIDE + 2),
        1 => g.next() as usize >> g.below(64),
        _ => right,
    }
}
fn index(g: &mut Random, n: usize) -> usize {
    if g.once_in(25) { g.next() as usize >> g.below(64) } else { g.below(n) }
}

fn lists(g: &mut Random, quantum: bool) -> Lists {
    let mut l = states::lists(g, quantum);
    let one_in = g.one_of(&[2, 10, 100, 1000]);
    for list in [&mut l.m, &mut l.sigma, &mut l.epsilon_k, &mut l.lr, &mut l.la, &mut l.mass, &mut l.k_ij, &mut l.l_ij] {
        scatter(g, list, one_in);
        stretch(g, list, 1.0);
    }
    scatter_bytes(g, &mut l.order, one_in);
    stretch(g, &mut l.order, 1);
    l.count = count(g, l.count);
    l
}

fn state(g: &mut Random, n: usize, one_in: usize) -> State {
    let mut s = states::state(g, n, &[1.0; SIDE], &[3.0; SIDE], true);
    scatter(g, &mut s.fractions, one_in);
    scatter(g, &mut s.densities, one_in);
    stretch(g, &mut s.fractions, 0.5);
    stretch(g, &mut s.densities, 0.001);
    s
}

fn quantum(g: &mut Random, case: u64, c: &mut Caller, tally: &mut Tally) {
    let l = lists(g, true);
    let m = if g.once_in(2) { g.odd() } else { f64::from_bits(g.pattern()) };
    if let Some(number) = c.vrq_record_m(m) {
        judge(tally, "fuzz vrq_record_m", case, c, 0, number, &oracle::vrq_record_m(m), |_| Ok(()));
    }
    let out = oracle::QUANTUM_SET.map(|n| if g.once_in(25) { g.below(500) } else { n });
    let expected = oracle::vrq_parameters(&l, out);
    if let Some(number) = c.vrq_parameters(&l, out) {
        judge(tally, "fuzz vrq_parameters", case, c, 3, number, &expected, |s| {
            floats("m", &c.lent.out(2), &s.m)?;
            floats("sheets", &c.lent.out(1), &s.sheets)?;
            bytes("orders", &c.lent.out(0), &s.orders)
        });
    }
    cards::fuzz_lists(g, case, c, tally, &l, true);
    let Ok(mut set) = oracle::vrq_parameters(&states::lists(g, true), oracle::QUANTUM_SET) else { return };
    let n = set.count;
    let one_in = g.one_of(&[2, 20, 200, 2000, 20000]);
    scatter_set(g, &mut set, one_in);
    let (i, j, t) = (index(g, n), index(g, n), if g.once_in(20) { g.bits() } else { g.spread(1.0, 2000.0) });
    let out = [6, 3].map(|n| if g.once_in(25) { g.below(20) } else { n });
    let expected = oracle::vrq_radii(&set, i, j, t, out);
    if let Some(number) = c.vrq_radii(&set, i, j, t, out) {
        judge(tally, "fuzz vrq_radii", case, c, 2, number, &expected, |(radii, counts)| {
            floats("radii", &c.lent.out(1), radii)?;
            bytes("counts", &c.lent.out(0), counts)
        });
    }
    let out = oracle::TABLE_AND_COUNTS.map(|n| if g.once_in(25) { g.below(500) } else { n });
    let expected = oracle::vrq_table(&set, t, out);
    if let Some(number) = c.vrq_table(&set, t, out) {
        judge(tally, "fuzz vrq_table", case, c, 2, number, &expected, |(table, counts)| {
            floats("table", &c.lent.out(1), table)?;
            bytes("counts", &c.lent.out(0), counts)
        });
    }
    let mut table: Vec<f64> = (0..TABLE).map(|_| g.within(2.5, 3.5)).collect();
    scatter(g, &mut table, one_in);
    stretch(g, &mut table, 3.0);
    let s = state(g, n, one_in);
    let (wanted, out) = (g.once_in(2), if g.once_in(25) { g.below(6) } else { 3 });
    let expected = oracle::vrq_energies(&set, &s, &table, wanted, out);
    if let Some(number) = c.vrq_energies(&set, &s, &table, wanted, out) {
        judge(tally, "fuzz vrq_energies", case, c, 1, number, &expected, |e| floats("energies", &c.lent.out(0), e));
    }
    let out = if g.once_in(25) { g.below(7) } else { 4 };
    let expected = oracle::vrq_total(&set, &s, &table, wanted, out);
    if let Some(number) = c.vrq_total(&set, &s, &table, wanted, out) {
        judge(tally, "fuzz vrq_total", case, c, 1, number, &expected, |e| floats("total", &c.lent.out(0), e));
    }
    let out = if g.once_in(25) { g.below(9) } else { 6 };
    if let Some(number) = c.vrq_energies_ends(&set, &s, &table, wanted, out) {
        let expected = oracle::vrq_energies_ends(&set, &s, &table, wanted, out);
        judge(tally, "fuzz vrq_energies_ends", case, c, 1, number, &expected, |e| floats("ends", &c.lent.out(0), e));
    }
    slopes::arbitrary(g, case, c, tally, &set, &s, |g, list| scatter(g, list, one_in));
    tank::arbitrary(g, case, c, tally, &set, n, |g, list| scatter(g, list, one_in));
    let (radii, out) =
        ([g.odd(), g.odd()].map(|x| if g.once_in(4) { x } else { g.within(2.0, 4.0) }), if g.once_in(25) { g.below(9) } else { 2 });
    let expected = oracle::vrq_diameter(&set, i, j, t, radii);
    if let Some(number) = c.vrq_diameter(&set, i, j, t, radii) {
        judge(tally, "fuzz vrq_diameter", case, c, 1, number, &expected, |d| floats("diameter", &c.lent.out(0), &[*d]));
    }
    if let Some(number) = c.vrq_diameter_ends(&set, i, j, t, radii, out) {
        let expected = oracle::vrq_diameter_ends(&set, i, j, t, radii, out);
        judge(tally, "fuzz vrq_diameter_ends", case, c, 1, number, &expected, |e| floats("ends", &c.lent.out(0), e));
    }
    let out = if g.once_in(25) { g.below(6) } else { 3 };
    if let Some(number) = c.vrq_stage(&l, &s, wanted, out) {
        let expected = oracle::vrq_stage(&l, &s, wanted, out);
        judge(tally, "fuzz vrq_stage", case, c, 1, number, &expected, |e| floats("energies", &c.lent.out(0), e));
    }
}

fn scatter_set(g: &mut Random, set: &mut QuantumSet, one_in: usize) {
    scatter(g, &mut set.m, one_in);
    scatter(g, &mut set.sheets, one_in);
    scatter_bytes(g, &mut set.orders, 10 * one_in);
    stretch(g, &mut set.m, 1.0);
    stretch(g, &mut set.sheets, 1.0);
    stretch(g, &mut set.orders, 0);
    set.count = count(g, set.count);
}

fn vr_mie(g: &mut Random, case: u64, c: &mut Caller, tally: &mut Tally) {
    let l = lists(g, false);
    let out = oracle::MIE_SET.map(|n| if g.once_in(25) { g.below(500) } else { n });
    let expected = oracle::vr_parameters(&l, out);
    if let Some(number) = c.vr_parameters(&l, out) {
        judge(tally, "fuzz vr_parameters", case, c, 2, number, &expected, |s| {
            floats("lists", &c.lent.out(1), &s.lists)?;
            floats("sheets", &c.lent.out(0), &s.sheets)
        });
    }
    cards::fuzz_lists(g, case, c, tally, &l, false);
    let Ok(mut set) = oracle::vr_parameters(&states::lists(g, false), oracle::MIE_SET) else { return };
    let n = set.count;
    let one_in = g.one_of(&[2, 20, 200, 2000, 20000]);
    scatter_mie(g, &mut set, one_in);
    let (i, j, t) = (index(g, n), index(g, n), if g.once_in(20) { g.bits() } else { g.spread(1.0, 2000.0) });
    let expected = oracle::vr_radius(&set, i, j, t);
    if let Some(number) = c.vr_radius(&set, i, j, t) {
        judge(tally, "fuzz vr_radius", case, c, 1, number, &expected, |r| floats("radius", &c.lent.out(0), &[*r]));
    }
    let out = if g.once_in(25) { g.below(500) } else { n };
    let expected = oracle::vr_diameters(&set, t, out);
    if let Some(number) = c.vr_diameters(&set, t, out) {
        judge(tally, "fuzz vr_diameters", case, c, 1, number, &expected, |d| floats("diameters", &c.lent.out(0), d));
    }
    let mut diameters: Vec<f64> = (0..n).map(|_| g.within(2.5, 3.5)).collect();
    scatter(g, &mut diameters, one_in);
    stretch(g, &mut diameters, 3.0);
    let (s, chain) = (state(g, n, one_in), g.once_in(2));
    let expected = oracle::vr_dispersion(&set, &s, &diameters, chain);
    if let Some(number) = c.vr_dispersion(&set, &s, &diameters, chain) {
        judge(tally, "fuzz vr_dispersion", case, c, 1, number, &expected, |e| floats("energy", &c.lent.out(0), &[*e]));
    }
    let out = if g.once_in(25) { g.below(9) } else { 2 };
    if let Some(number) = c.vr_dispersion_ends(&set, &s, &diameters, chain, out) {
        let expected = oracle::vr_dispersion_ends(&set, &s, &diameters, chain, out);
        judge(tally, "fuzz vr_dispersion_ends", case, c, 1, number, &expected, |e| floats("ends", &c.lent.out(0), e));
    }
    let r0 = if g.once_in(4) { g.odd() } else { g.within(0.5, 0.95) };
    let expected = oracle::vr_diameter(&set, i, j, t, r0);
    if let Some(number) = c.vr_diameter(&set, i, j, t, r0) {
        judge(tally, "fuzz vr_diameter", case, c, 1, number, &expected, |d| floats("diameter", &c.lent.out(0), &[*d]));
    }
    if let Some(number) = c.vr_diameter_ends(&set, i, j, t, r0, out) {
        let expected = oracle::vr_diameter_ends(&set, i, j, t, r0, out);
        judge(tally, "fuzz vr_diameter_ends", case, c, 1, number, &expected, |e| floats("ends", &c.lent.out(0), e));
    }
    if let Some(number) = c.vr_stage(&l, &s, chain) {
        let expected = oracle::vr_stage(&l, &s, chain);
        judge(tally, "fuzz vr_stage", case, c, 1, number, &expected, |e| floats("energy", &c.lent.out(0), &[*e]));
    }
}

fn scatter_mie(g: &mut Random, set: &mut MieSet, one_in: usize) {
    scatter(g, &mut set.lists, one_in);
    scatter(g, &mut set.sheets, one_in);
    stretch(g, &mut set.lists, 1.0);
    stretch(g, &mut set.sheets, 1.0);
    set.count = count(g, set.count);
}

pub fn run(cases: u64, seed: u64, tally: &mut Tally) {
    num_dual::use_functions(&oracle::PORT);
    num_dual_ended::use_functions(&oracle::ENDED);
    let mut c = Caller::new(seed);
    for case in 0..cases {
        let mut g = Random((seed ^ 0xf022).wrapping_mul(0x1000_0000_01b3).wrapping_add(case << 20));
        quantum(&mut g, case, &mut c, tally);
        vr_mie(&mut g, case, &mut c, tally);
        cards::fuzz(&mut g, case, &mut c, tally);
    }
}
