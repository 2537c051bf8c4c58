//! The differential run: each operation of the port beside the Rust text over the port's own functions, bit for bit.
use crate::calls::Caller;
use crate::oracle::{self, same};
use crate::random::Random;
use crate::sizes::{self, SHEET, SIDE, at, mie_set, quantum_set};
use crate::states;
use crate::tally::Tally;

/// One operation's answer beside the expected one: number, values, and the bits of every lent list.
pub fn judge<T>(
    tally: &mut Tally,
    name: &'static str,
    case: u64,
    c: &Caller,
    outs: usize,
    number: u8,
    expected: &Result<T, u8>,
    values: impl FnOnce(&T) -> Result<(), String>,
) {
    let wrong = match expected {
        _ if !c.lent.guards_kept() => Err("wrote beside a lent list".into()),
        _ if !c.lent.inputs_kept(outs) => Err("changed a list that it was only to read".into()),
        Err(wanted) if number != *wanted => Err(format!("answers {number}, expected {wanted}")),
        Err(_) if !c.lent.outs_kept(outs) => Err(format!("refuses with {number} and changes a lent list")),
        Err(_) => Ok(()),
        Ok(_) if number != 0 => Err(format!("answers {number}, expected 0")),
        Ok(v) => values(v),
    };
    tally.note(name, expected.as_ref().err().copied().unwrap_or(0), wrong.is_ok(), || format!("case {case}: {}", wrong.unwrap_err()));
}

/// Floats of a list against the expected ones.
pub fn floats(what: &str, got: &[f64], wanted: &[f64]) -> Result<(), String> {
    if got.len() != wanted.len() {
        return Err(format!("{what}: {} places, expected {}", got.len(), wanted.len()));
    }
    match (0..got.len()).find(|&k| !same(got[k], wanted[k])) {
        None => Ok(()),
        Some(k) => {
            Err(format!("{what}[{k}]: {:e} ({:016x}), expected {:e} ({:016x})", got[k], got[k].to_bits(), wanted[k], wanted[k].to_bits()))
        }
    }
}
pub fn bytes(what: &str, got: &[u8], wanted: &[u8]) -> Result<(), String> {
    match (0..wanted.len()).find(|&k| got[k] != wanted[k]) {
        None => Ok(()),
        Some(k) => Err(format!("{what}[{k}]: {}, expected {}", got[k], wanted[k])),
    }
}

/// The inputs of a case that is run alone.
fn tell(wanted: bool, inputs: &dyn std::fmt::Debug) {
    if wanted {
        println!("{inputs:?}");
    }
}

/// A length that is right but once in thirty times.
fn length(g: &mut Random, right: usize) -> usize {
    if g.once_in(30) { g.one_of(&[right + 1, right - 1, 0]) } else { right }
}

/// The oracle's two runs: the ends are refused as the floats are, or with 8, and enclose them.
fn two_runs(tally: &mut Tally, case: u64, float: Result<Vec<f64>, u8>, ends: Result<Vec<f64>, u8>) {
    let right = match (&float, &ends) {
        (Ok(_), Err(number)) => *number == 8,
        (Err(a), Err(b)) => a == b,
        (Ok(e), Ok(ends)) => (0..e.len()).all(|k| ends[2 * k] <= e[k] && e[k] <= ends[2 * k + 1]),
        (Err(_), Ok(_)) => false,
    };
    let number = ends.as_ref().err().copied().unwrap_or(0);
    tally.note("oracle: two ends", number, right, || format!("case {case}: floats {float:?}, ends {ends:?}"));
}

fn quantum(g: &mut Random, case: u64, c: &mut Caller, tally: &mut Tally, tell_all: bool) {
    let mut lists = states::lists(g, true);
    if g.once_in(5) {
        states::spoil(g, &mut lists, true);
    }
    for m in lists.m.iter().chain([&1.0f64.next_up(), &1.0f64.next_down(), &f64::NAN]) {
        if let Some(number) = c.vrq_record_m(*m) {
            judge(tally, "vrq_record_m", case, c, 0, number, &oracle::vrq_record_m(*m), |_| Ok(()));
        }
    }
    let out = oracle::QUANTUM_SET.map(|n| length(g, n));
    let expected = oracle::vrq_parameters(&lists, out);
    if let Some(number) = c.vrq_parameters(&lists, out) {
        judge(tally, "vrq_parameters", case, c, 3, number, &expected, |set| {
            floats("m", &c.lent.out(2), &set.m)?;
            floats("sheets", &c.lent.out(1), &set.sheets)?;
            bytes("orders", &c.lent.out(0), &set.orders)
        });
    }
    let non_additive = g.once_in(2);
    let Ok(mut set) = oracle::vrq_parameters(&lists, oracle::QUANTUM_SET) else {
        let state = states::state(g, 1, &[1.0], &[3.0], true);
        return quantum_stage(case, c, tally, &lists, &state, non_additive, 3);
    };
    let made = set.clone();
    if g.once_in(3) {
        states::quantum_set_by_hand(g, &mut set);
    }
    let n = set.count.clamp(1, SIDE);
    let t = states::temperature(g, true);
    tell(tell_all, &(&lists, &set, t));

    let mut pair = || if g.once_in(30) { (g.below(SIDE + 2), g.below(SIDE + 2)) } else { (g.below(n), g.below(n)) };
    let (i, j) = pair();
    for (i, j) in [(i, j), pair(), pair(), pair()] {
        let out = [length(g, 6), length(g, 3)];
        let expected = oracle::vrq_radii(&set, i, j, t, out);
        if let Some(number) = c.vrq_radii(&set, i, j, t, out) {
            judge(tally, "vrq_radii", case, c, 2, number, &expected, |(radii, counts)| {
                floats("radii", &c.lent.out(1), radii)?;
                bytes("counts", &c.lent.out(0), counts)
            });
        }
    }

    let out = oracle::TABLE_AND_COUNTS.map(|n| length(g, n));
    let expected = oracle::vrq_table(&set, t, out);
    if let Some(number) = c.vrq_table(&set, t, out) {
        judge(tally, "vrq_table", case, c, 2, number, &expected, |(table, counts)| {
            floats("table", &c.lent.out(1), table)?;
            bytes("counts", &c.lent.out(0), counts)
        });
    }

    if let Ok((_, counts)) = &expected {
        counts.iter().enumerate().for_each(|(k, count)| tally.search(k / SHEET, *count));
    }

    // the energies of the set just tried where its table stands, else of the set as made with a table filled by hand
    let mut table = match &expected {
        Ok((table, _)) => table.to_vec(),
        Err(_) => {
            if !g.once_in(4) {
                set = made.clone();
            }
            let sheet = |start: usize| &made.sheets[start..start + SHEET];
            let sigma = sheet(quantum_set::SIGMA_IJ);
            [sigma, sigma, sheet(quantum_set::EPSILON_K_IJ), &[0.01; SHEET]].concat()
        }
    };
    let n = set.count.clamp(1, SIDE);
    states::by_hand(g, &mut table);
    if g.once_in(40) {
        table.pop();
    }
    let diameters = states::diameters(n, &table);
    let mut state = states::state(g, n, &[1.0; SIDE], &diameters, true);
    if expected.is_ok() && !g.once_in(10) {
        state.temperature = t;
    }
    tell(tell_all, &(&state, &table));
    let out = length(g, 3);
    let expected = oracle::vrq_energies(&set, &state, &table, non_additive, out);
    if let Some(number) = c.vrq_energies(&set, &state, &table, non_additive, out) {
        judge(tally, "vrq_energies", case, c, 1, number, &expected, |e| floats("energies", &c.lent.out(0), e));
    }
    let out = length(g, 4);
    let expected = oracle::vrq_total(&set, &state, &table, non_additive, out);
    if let Some(number) = c.vrq_total(&set, &state, &table, non_additive, out) {
        judge(tally, "vrq_total", case, c, 1, number, &expected, |e| floats("total", &c.lent.out(0), e));
    }
    let float = oracle::vrq_energies(&set, &state, &table, non_additive, 3);
    two_runs(tally, case, float.map(|e| e.to_vec()), oracle::vrq_energies_ends(&set, &state, &table, non_additive, 6));
    let out = length(g, 6);
    let expected = oracle::vrq_energies_ends(&set, &state, &table, non_additive, out);
    if let Some(number) = c.vrq_energies_ends(&set, &state, &table, non_additive, out) {
        judge(tally, "vrq_energies_ends", case, c, 1, number, &expected, |e| floats("ends", &c.lent.out(0), e));
    }
    let sigma_eff = table[at(sizes::table::SIGMA_EFF, i % n, j % n)];
    let mut radii = [sigma_eff, sigma_eff * 0.8];
    states::by_hand(g, &mut radii);
    let expected = oracle::vrq_diameter(&set, i, j, t, radii);
    if let Some(number) = c.vrq_diameter(&set, i, j, t, radii) {
        judge(tally, "vrq_diameter", case, c, 1, number, &expected, |d| floats("diameter", &c.lent.out(0), &[*d]));
    }
    if let Ok((radii, d)) = oracle::vrq_diameter_searched(&set, i, j, t) {
        if let Some(number) = c.vrq_diameter(&set, i, j, t, radii) {
            judge(tally, "vrq_diameter", case, c, 1, number, &Ok(d), |d| floats("diameter", &c.lent.out(0), &[*d]));
        }
    }
    let out = length(g, 2);
    let expected = oracle::vrq_diameter_ends(&set, i, j, t, radii, out);
    if let Some(number) = c.vrq_diameter_ends(&set, i, j, t, radii, out) {
        judge(tally, "vrq_diameter_ends", case, c, 1, number, &expected, |e| floats("ends", &c.lent.out(0), e));
    }
    if g.once_in(4) {
        let out = length(g, 3);
        quantum_stage(case, c, tally, &lists, &state, non_additive, out);
    }
}

fn quantum_stage(
    case: u64,
    c: &mut Caller,
    tally: &mut Tally,
    lists: &oracle::Lists,
    state: &oracle::State,
    non_additive: bool,
    out: usize,
) {
    if crate::port::VRQ_STAGE.is_none() {
        return;
    }
    let expected = oracle::vrq_stage(lists, state, non_additive, out);
    let number = c.vrq_stage(lists, state, non_additive, out).unwrap();
    judge(tally, "vrq_stage", case, c, 1, number, &expected, |e| floats("energies", &c.lent.out(0), e));
}

fn vr_mie(g: &mut Random, case: u64, c: &mut Caller, tally: &mut Tally, tell_all: bool) {
    let mut lists = states::lists(g, false);
    if g.once_in(5) {
        states::spoil(g, &mut lists, false);
    }
    let out = oracle::MIE_SET.map(|n| length(g, n));
    let expected = oracle::vr_parameters(&lists, out);
    if let Some(number) = c.vr_parameters(&lists, out) {
        judge(tally, "vr_parameters", case, c, 2, number, &expected, |set| {
            floats("lists", &c.lent.out(1), &set.lists)?;
            floats("sheets", &c.lent.out(0), &set.sheets)
        });
    }
    let chain = g.once_in(2);
    let Ok(mut set) = oracle::vr_parameters(&lists, oracle::MIE_SET) else {
        let state = states::state(g, 1, &[1.0], &[3.0], false);
        return vr_mie_stage(case, c, tally, &lists, &state, chain);
    };
    let made = set.clone();
    if g.once_in(3) {
        states::mie_set_by_hand(g, &mut set);
    }
    let n = set.count.clamp(1, SIDE);
    let t = states::temperature(g, false);
    tell(tell_all, &(&lists, &set, t));

    let (i, j) = if g.once_in(30) { (g.below(SIDE + 2), g.below(SIDE + 2)) } else { (g.below(n), g.below(n)) };
    let expected = oracle::vr_radius(&set, i, j, t);
    if let Some(number) = c.vr_radius(&set, i, j, t) {
        judge(tally, "vr_radius", case, c, 1, number, &expected, |r| floats("radius", &c.lent.out(0), &[*r]));
    }

    let out = if g.once_in(30) { g.below(SIDE + 2) } else { n };
    let expected = oracle::vr_diameters(&set, t, out);
    if let Some(number) = c.vr_diameters(&set, t, out) {
        judge(tally, "vr_diameters", case, c, 1, number, &expected, |d| floats("diameters", &c.lent.out(0), d));
    }

    let mut diameters = match expected {
        Ok(d) => d,
        Err(_) => {
            if !g.once_in(4) {
                set = made.clone();
            }
            (0..set.count.clamp(1, SIDE)).map(|i| made.sheets[at(mie_set::SIGMA_IJ, i, i)] * 0.97).collect()
        }
    };
    let n = diameters.len();
    states::by_hand(g, &mut diameters);
    if g.once_in(40) {
        diameters.push(3.0);
    }
    let mut state = states::state(g, n, &made.lists[..SIDE], &diameters, false);
    if !g.once_in(10) {
        state.temperature = t;
    }
    tell(tell_all, &(&state, &diameters));
    for chain in [false, true] {
        let expected = oracle::vr_dispersion(&set, &state, &diameters, chain);
        if let Some(number) = c.vr_dispersion(&set, &state, &diameters, chain) {
            let name = if chain { "vr_dispersion, chain" } else { "vr_dispersion" };
            judge(tally, name, case, c, 1, number, &expected, |e| floats("energy", &c.lent.out(0), &[*e]));
        }
    }
    let float = oracle::vr_dispersion(&set, &state, &diameters, chain);
    two_runs(tally, case, float.map(|e| vec![e]), oracle::vr_dispersion_ends(&set, &state, &diameters, chain, 2));
    let out = length(g, 2);
    let expected = oracle::vr_dispersion_ends(&set, &state, &diameters, chain, out);
    if let Some(number) = c.vr_dispersion_ends(&set, &state, &diameters, chain, out) {
        judge(tally, "vr_dispersion_ends", case, c, 1, number, &expected, |e| floats("ends", &c.lent.out(0), e));
    }
    let r0 = if g.once_in(10) { g.odd() } else { g.within(0.5, 0.95) };
    let expected = oracle::vr_diameter(&set, i, j, t, r0);
    if let Some(number) = c.vr_diameter(&set, i, j, t, r0) {
        judge(tally, "vr_diameter", case, c, 1, number, &expected, |d| floats("diameter", &c.lent.out(0), &[*d]));
    }
    if let Ok((r0, d)) = oracle::vr_diameter_searched(&set, i, j, t) {
        if let Some(number) = c.vr_diameter(&set, i, j, t, r0) {
            judge(tally, "vr_diameter", case, c, 1, number, &Ok(d), |d| floats("diameter", &c.lent.out(0), &[*d]));
        }
    }
    let expected = oracle::vr_diameter_ends(&set, i, j, t, r0, out);
    if let Some(number) = c.vr_diameter_ends(&set, i, j, t, r0, out) {
        judge(tally, "vr_diameter_ends", case, c, 1, number, &expected, |e| floats("ends", &c.lent.out(0), e));
    }
    if g.once_in(4) {
        vr_mie_stage(case, c, tally, &lists, &state, chain);
    }
}

fn vr_mie_stage(case: u64, c: &mut Caller, tally: &mut Tally, lists: &oracle::Lists, state: &oracle::State, chain: bool) {
    if let Some(number) = c.vr_stage(lists, state, chain) {
        let expected = oracle::vr_stage(lists, state, chain);
        judge(tally, "vr_stage", case, c, 1, number, &expected, |e| floats("energy", &c.lent.out(0), &[*e]));
    }
}

/// `count` cases of each model from a seed; `only` one of them.
pub fn run(count: u64, seed: u64, only: Option<u64>, tally: &mut Tally) {
    num_dual::use_functions(&oracle::PORT);
    num_dual_ended::use_functions(&oracle::ENDED);
    let mut c = Caller::new(seed);
    for case in 0..count {
        if only.is_some_and(|k| k != case) {
            continue;
        }
        let mut g = Random(seed.wrapping_mul(0x1000_0000_01b3).wrapping_add(case << 20));
        quantum(&mut g, case, &mut c, tally, only.is_some());
        vr_mie(&mut g, case, &mut c, tally, only.is_some());
    }
}
