//! What each operation has to answer: the refusals by the words of the scope, the values by the renamed Rust text
//! over the port's elementary functions.
use crate::port;
use crate::sizes::{self, COUNTS, LISTS, SHEET, SHEETS, SIDE, TABLE, at};
use ended::saftvrmie::eos as ended_vr;
use ended::saftvrqmie::eos::driver as ended_vrq;
use ends::F;
use num_dual::{Dual, Functions, REAL_POWER_SLOPES};
use renamed::saftvrmie::eos as vr;
use renamed::saftvrmie::parameters::r0;
use renamed::saftvrqmie::eos::driver as vrq;
use std::cell::{Cell, RefCell};
use std::sync::atomic::Ordering::Relaxed;

// ---- elementary functions: domains by the scope, values by the port

thread_local! {
    /// Whether an elementary argument was outside since the last look.
    static OUTSIDE: Cell<bool> = const { Cell::new(false) };
    /// Bases of the powers and the tested values, since a search began.
    static BASES: RefCell<Vec<f64>> = const { RefCell::new(vec![]) };
    static TESTED: Cell<f64> = const { Cell::new(f64::NAN) };
}

pub fn sqrt_inside(x: f64) -> bool {
    x >= 0.0 && x <= f64::MAX
}
pub fn ln_inside(x: f64) -> bool {
    x >= f64::MIN_POSITIVE && x <= f64::MAX
}
pub fn ln_1p_inside(x: f64) -> bool {
    x > -1.0 && x <= 1048576.0
}
pub fn exp_inside(x: f64) -> bool {
    x >= -700.0 && x <= 700.0
}
pub fn tanh_inside(x: f64) -> bool {
    x >= -350.0 && x <= 350.0
}
pub fn powf_inside(base: f64, exponent: f64) -> bool {
    base >= 0.03125 && base <= 32.0 && exponent >= -192.0 && exponent <= 192.0
}

fn asked(inside: bool, call: impl FnOnce(*mut f64) -> u8) -> f64 {
    let mut out = f64::NAN;
    if !inside {
        OUTSIDE.set(true);
    } else {
        assert!(call(&mut out) == 0, "the port refuses an elementary argument that is inside");
    }
    out
}
macro_rules! one {
    ($f:ident, $inside:ident, $port:ident) => {
        fn $f(x: f64) -> f64 {
            asked($inside(x), |out| unsafe { port::$port.unwrap()(x, out) })
        }
    };
}
one!(sqrt, sqrt_inside, SQRT);
one!(ln, ln_inside, LN);
one!(ln_1p, ln_1p_inside, LN_1P);
one!(exp, exp_inside, EXP);
one!(exp_m1, exp_inside, EXP_M1);
one!(tanh, tanh_inside, TANH);
fn powf(base: f64, exponent: f64) -> f64 {
    BASES.with_borrow_mut(|b| b.push(base));
    asked(powf_inside(base, exponent), |out| unsafe { port::POWF.unwrap()(base, exponent, out) })
}
fn re(x: f64) -> f64 {
    TESTED.set(x);
    x
}
pub static PORT: Functions = Functions { re, sqrt, ln, ln_1p, exp, exp_m1, tanh, powf };

fn start() {
    OUTSIDE.set(false);
    BASES.with_borrow_mut(Vec::clear);
}
/// 6 if an elementary argument was outside since `start`.
fn inside() -> Result<(), u8> {
    if OUTSIDE.get() { Err(6) } else { Ok(()) }
}
/// 7 if a value is not finite.
fn finite(values: &[f64]) -> Result<(), u8> {
    if values.iter().all(|x| x.is_finite()) { Ok(()) } else { Err(7) }
}

// ---- lists, sets, states as they cross the boundary

/// The lengths of the lists of a quantum set, of a table with its counts, and of a set of SAFT-VR Mie.
pub const QUANTUM_SET: [usize; 3] = [SIDE, SHEETS, SHEET];
pub const TABLE_AND_COUNTS: [usize; 2] = [TABLE, COUNTS];
pub const MIE_SET: [usize; 2] = [LISTS, SHEETS];

#[derive(Clone, Debug)]
pub struct Lists {
    pub count: usize,
    pub m: Vec<f64>,
    pub sigma: Vec<f64>,
    pub epsilon_k: Vec<f64>,
    pub lr: Vec<f64>,
    pub la: Vec<f64>,
    pub mass: Vec<f64>,
    pub order: Vec<u8>,
    pub k_ij: Vec<f64>,
    /// l_ij of the quantum model, gamma_ij of VR Mie.
    pub l_ij: Vec<f64>,
}
#[derive(Clone, Debug)]
pub struct QuantumSet {
    pub count: usize,
    pub m: Vec<f64>,
    pub sheets: Vec<f64>,
    pub orders: Vec<u8>,
}
impl QuantumSet {
    pub fn lengths(&self) -> [usize; 3] {
        [self.m.len(), self.sheets.len(), self.orders.len()]
    }
}
#[derive(Clone, Debug)]
pub struct MieSet {
    pub count: usize,
    pub lists: Vec<f64>,
    pub sheets: Vec<f64>,
}
impl MieSet {
    pub fn lengths(&self) -> [usize; 2] {
        [self.lists.len(), self.sheets.len()]
    }
}
#[derive(Clone, Debug)]
pub struct State {
    pub temperature: f64,
    pub fractions: Vec<f64>,
    pub densities: Vec<f64>,
}

/// Layers from the bottom up, their lists one after another.
#[derive(Clone, Debug)]
pub struct Tank {
    pub layers: usize,
    pub temperatures: Vec<f64>,
    pub fractions: Vec<f64>,
    pub densities: Vec<f64>,
    pub volumes: Vec<f64>,
}
impl Tank {
    /// Layer l, of n components.
    pub fn layer(&self, n: usize, l: usize) -> State {
        let part = |list: &[f64]| list[n * l..n * (l + 1)].to_vec();
        State { temperature: self.temperatures[l], fractions: part(&self.fractions), densities: part(&self.densities) }
    }
}

/// The lists as a text takes them: each of the texts has a type of its own.
macro_rules! lists_for {
    ($text:ident, $l:expr) => {
        $text::Lists {
            m: &$l.m,
            sigma: &$l.sigma,
            epsilon_k: &$l.epsilon_k,
            lr: &$l.lr,
            la: &$l.la,
            mass: &$l.mass,
            order: &$l.order,
            k_ij: &$l.k_ij,
            l_ij: &$l.l_ij,
        }
    };
}
pub(crate) use lists_for;

// ---- refusals by limits

fn lengths(right: bool) -> Result<(), u8> {
    if right { Ok(()) } else { Err(1) }
}
fn limits(right: bool) -> Result<(), u8> {
    if right { Ok(()) } else { Err(2) }
}
fn count_right(count: usize) -> bool {
    (1..=SIDE).contains(&count)
}
fn all_within(list: &[f64], low: f64, high: f64) -> bool {
    list.iter().all(|&x| low <= x && x <= high)
}
fn exponents_right(lr: &[f64], la: &[f64]) -> bool {
    lr.iter().zip(la).all(|(&lr, &la)| 3.0 < la && la < lr && lr <= 64.0)
}
/// Within ±0.9, equal bits at (i, j) and (j, i), +0 at (i, i).
fn pairs_right(count: usize, pairs: &[f64]) -> bool {
    all_within(pairs, -0.9, 0.9)
        && (0..count).all(|i| {
            pairs[count * i + i].to_bits() == 0 && (0..i).all(|j| pairs[count * i + j].to_bits() == pairs[count * j + i].to_bits())
        })
}
fn temperature_right(t: f64) -> bool {
    1.0 <= t && t <= 2000.0
}
fn state_right(s: &State) -> bool {
    temperature_right(s.temperature) && all_within(&s.fractions, 0.0, 1.0) && all_within(&s.densities, 0.0, 1.0)
}

/// A set as the boundary takes it apart: 1 for the count, one of its lists or what else of the call is not `right`; only then
/// 4 if the order of a pair in use is above 2 (an enum has no such case). Other places are not looked at.
fn quantum_set(s: &QuantumSet, right: bool) -> Result<(), u8> {
    lengths(count_right(s.count) && s.lengths() == QUANTUM_SET && right)?;
    let used = |e: &usize| e / SIDE < s.count && e % SIDE < s.count;
    if (0..SHEET).filter(used).all(|e| s.orders[e] <= 2) { Ok(()) } else { Err(4) }
}
fn pair_right(count: usize, i: usize, j: usize) -> bool {
    i < count && j < count
}
fn state_lists_right(count: usize, st: &State, table: &[f64]) -> bool {
    st.fractions.len() == count && st.densities.len() == count && table.len() == TABLE
}
fn mie_set_right(s: &MieSet) -> bool {
    count_right(s.count) && s.lengths() == MIE_SET
}

// ---- quantum operations

fn in_places(list: &[f64]) -> Vec<f64> {
    let mut places = vec![0.0; SIDE];
    places[..list.len()].copy_from_slice(list);
    places
}

/// 3 if m is not equal to 1.0, NaN included.
pub fn vrq_record_m(m: f64) -> Result<(), u8> {
    if m == 1.0 { Ok(()) } else { Err(3) }
}

pub fn vrq_parameters(l: &Lists, out: [usize; 3]) -> Result<QuantumSet, u8> {
    let n = l.count;
    let right = |list: &[f64]| list.len() == n;
    lengths(
        count_right(n)
            && right(&l.m)
            && right(&l.sigma)
            && right(&l.epsilon_k)
            && right(&l.lr)
            && right(&l.la)
            && right(&l.mass)
            && l.order.len() == n
            && l.k_ij.len() == n * n
            && l.l_ij.len() == n * n
            && out == QUANTUM_SET,
    )?;
    limits(
        all_within(&l.sigma, 0.5, 16.0)
            && all_within(&l.epsilon_k, 0.1, 5000.0)
            && exponents_right(&l.lr, &l.la)
            && all_within(&l.mass, 1e-27, 1e-23)
            && pairs_right(n, &l.k_ij)
            && pairs_right(n, &l.l_ij),
    )?;
    start();
    let p = vrq::parameters(&lists_for!(vrq, l))?;
    inside()?;
    let (sheets, orders) = vrq::flat(&p);
    Ok(QuantumSet { count: n, m: in_places(&l.m), sheets: sheets.to_vec(), orders: orders.to_vec() })
}

/// How many of the lists of orders 0 to 3 pass, meet 4, meet 5: each list goes through the Rust, all else within limits.
pub fn order_counts(count: usize, out: usize) -> Result<[u64; 3], u8> {
    lengths(count_right(count) && out == 3)?;
    let each = |x: f64| vec![x; count];
    let pairs = vec![0.0; count * count];
    let mut l = Lists {
        count,
        m: each(1.0),
        sigma: each(3.0),
        epsilon_k: each(30.0),
        lr: each(12.0),
        la: each(6.0),
        mass: each(3e-27),
        order: vec![0; count],
        k_ij: pairs.clone(),
        l_ij: pairs,
    };
    let mut counts = [0; 3];
    for ticked in 0..4u32.pow(count as u32) {
        l.order = (0..count).map(|k| (ticked >> (2 * k) & 3) as u8).collect();
        match vrq_parameters(&l, QUANTUM_SET) {
            Ok(_) => counts[0] += 1,
            Err(4) => counts[1] += 1,
            Err(5) => counts[2] += 1,
            Err(n) => panic!("the orders {:?} meet {n}", l.order),
        }
    }
    Ok(counts)
}

/// Evaluations of a search that has just run, its last radius before a step, and whether it was found.
fn searched(order: u8) -> (u8, f64, bool) {
    let per_evaluation = 12 * (1 + order as usize);
    let (calls, last) = BASES.with_borrow(|b| (b.len(), b[b.len() - per_evaluation]));
    assert!(calls % per_evaluation == 0 && calls / per_evaluation <= 19);
    let found = TESTED.get().abs() < 1.0e-12;
    (if found { (calls / per_evaluation) as u8 } else { 20 }, last, found)
}

/// Radius and last potential of the three searches of a pair, and their counts: 6 alone.
fn searches(p: &renamed::saftvrqmie::parameters::SaftVRQMiePars, order: u8, i: usize, j: usize, t: f64) -> Result<([f64; 6], [u8; 3]), u8> {
    start();
    let sigma_eff = p.calc_sigma_eff_ij(i, j, t);
    inside()?;
    let (sigma_count, sigma_last, found) = searched(order);
    assert!(!found || same(sigma_eff, sigma_last));
    start();
    let zero = p.zero_integrand(i, j, t, sigma_eff);
    inside()?;
    let (zero_count, zero_last, found) = searched(order);
    assert!(!found || same(zero, zero_last));
    start();
    let depth = p.calc_epsilon_k_eff_ij(i, j, t);
    inside()?;
    let (depth_count, depth_last, found) = searched(order);
    // the Rust keeps neither the depth's radius nor the potentials: worked again at the radii seen
    let [u, u_r, u_rr] = p.qmie_potential_ij(i, j, depth_last, t);
    assert!(same(depth, -u));
    let depth_radius = if found { depth_last } else { depth_last + -u_r / u_rr };
    let at = |r: f64| p.qmie_potential_ij(i, j, r, t)[0];
    Ok(([sigma_eff, at(sigma_last), zero, at(zero_last), depth_radius, u], [sigma_count, zero_count, depth_count]))
}

pub fn vrq_radii(s: &QuantumSet, i: usize, j: usize, t: f64, out: [usize; 2]) -> Result<([f64; 6], [u8; 3]), u8> {
    quantum_set(s, pair_right(s.count, i, j) && out == [6, 3])?;
    limits(temperature_right(t))?;
    searches(&vrq::set(s.count, &s.m, &s.sheets, &s.orders), s.orders[at(0, i, j)], i, j, t)
}

pub fn vrq_table(s: &QuantumSet, t: f64, out: [usize; 2]) -> Result<([f64; TABLE], [u8; COUNTS]), u8> {
    quantum_set(s, out == TABLE_AND_COUNTS)?;
    limits(temperature_right(t))?;
    let p = vrq::set(s.count, &s.m, &s.sheets, &s.orders);
    let mut counts = [0; COUNTS];
    for i in 0..s.count {
        for j in 0..s.count {
            let e = at(0, i, j);
            let (_, c) = searches(&p, s.orders[e], i, j, t)?;
            for (k, start) in [sizes::counts::SIGMA, sizes::counts::ZERO, sizes::counts::DEPTH].into_iter().enumerate() {
                counts[start + e] = c[k];
            }
        }
    }
    start();
    let table = vrq::table(&p, t);
    inside()?;
    finite(&table)?;
    Ok((table, counts))
}

pub fn vrq_energies(s: &QuantumSet, st: &State, table: &[f64], non_additive: bool, out: usize) -> Result<[f64; 3], u8> {
    let n = s.count;
    quantum_set(s, state_lists_right(n, st, table) && out == 3)?;
    limits(state_right(st))?;
    start();
    let p = vrq::set(n, &s.m, &s.sheets, &s.orders);
    let energies = vrq::energies(&p, table, st.temperature, &st.fractions, &st.densities, non_additive);
    inside()?;
    finite(&energies)?;
    Ok(energies)
}

/// A sum and what its rounding left, by Knuth's six operations. They overflow near the largest float, and are done on halves there.
fn with_remainder(x: f64, y: f64) -> [f64; 2] {
    let left = |x: f64, y: f64| {
        let s = x + y;
        let b = s - x;
        (x - (s - b)) + (y - b)
    };
    let r = left(x, y);
    [x + y, if r.is_finite() { r } else { 2.0 * left(x / 2.0, y / 2.0) } + 0.0]
}

/// The energies as one number: two sums, each with its remainder.
pub fn vrq_total(s: &QuantumSet, st: &State, table: &[f64], non_additive: bool, out: usize) -> Result<[f64; 4], u8> {
    let [h, d, a] = vrq_energies(s, st, table, non_additive, if out == 4 { 3 } else { 0 })?;
    let first = with_remainder(h, d);
    finite(&first[..1])?;
    let last = if non_additive { with_remainder(first[0], a) } else { [first[0], 0.0] };
    finite(&last[..1])?;
    Ok([first[0], first[1], last[0], last[1]])
}

fn layer_count_right(t: &Tank) -> Result<(), u8> {
    if (1..=32).contains(&t.layers) { Ok(()) } else { Err(14) }
}
fn tank_lists_right(n: usize, t: &Tank) -> bool {
    let (each, all) = (t.layers, n.wrapping_mul(t.layers));
    t.temperatures.len() == each && t.fractions.len() == all && t.densities.len() == all && t.volumes.len() == each
}

/// A tank: each layer's table and energies in a plain sum, from the bottom up.
pub fn vrq_tank(s: &QuantumSet, t: &Tank, non_additive: bool, out: usize) -> Result<[f64; 3], u8> {
    layer_count_right(t)?;
    quantum_set(s, tank_lists_right(s.count, t) && out == 3)?;
    let mut sum = [0.0; 3];
    for l in 0..t.layers {
        let (st, volume) = (t.layer(s.count, l), t.volumes[l]);
        limits(state_right(&st) && 0.0 < volume && volume <= 1e30)?;
        let (table, _) = vrq_table(s, st.temperature, TABLE_AND_COUNTS)?;
        let energies = vrq_energies(s, &st, &table, non_additive, 3)?;
        for k in 0..if non_additive { 3 } else { 2 } {
            sum[k] += energies[k] * volume * st.temperature;
        }
    }
    finite(&sum)?;
    Ok(sum)
}

/// Parameters, table and energies; the first refusal on the way is given.
pub fn vrq_stage(l: &Lists, st: &State, non_additive: bool, out: usize) -> Result<[f64; 3], u8> {
    lengths(out == 3)?;
    let set = vrq_parameters(l, QUANTUM_SET)?;
    let (table, _) = vrq_table(&set, st.temperature, TABLE_AND_COUNTS)?;
    vrq_energies(&set, st, &table, non_additive, 3)
}

/// The slopes that a caller supplies.
#[derive(Clone, Debug)]
pub struct Slopes {
    pub temperature: f64,
    pub fractions: Vec<f64>,
    pub densities: Vec<f64>,
}

fn duals(values: &[f64], slopes: &[f64]) -> Vec<Dual<f64>> {
    values.iter().zip(slopes).map(|(v, s)| Dual::new(*v, *s)).collect()
}
/// Values and slopes by turns.
fn both_parts(list: &[Dual<f64>]) -> Vec<f64> {
    list.iter().flat_map(|d| [d.re, d.eps]).collect()
}

/// The contributions, each as value and slope, from a table of its own with slopes: 1 (slope lists too), 2, 7 for a supplied
/// slope that is not finite, the table's 6 and 7, the energies' 6 and 7. The text runs on dual numbers.
pub fn vrq_energies_slopes(s: &QuantumSet, st: &State, slopes: &Slopes, non_additive: bool, out: usize) -> Result<Vec<f64>, u8> {
    let n = s.count;
    let lists = [&st.fractions, &st.densities, &slopes.fractions, &slopes.densities];
    quantum_set(s, lists.iter().all(|l| l.len() == n) && out == 6)?;
    limits(state_right(st))?;
    finite(&[slopes.temperature])?;
    finite(&slopes.fractions)?;
    finite(&slopes.densities)?;
    let p = vrq::set(n, &s.m, &s.sheets, &s.orders);
    REAL_POWER_SLOPES.store(true, Relaxed);
    let result = (|| {
        let temperature = Dual::new(st.temperature, slopes.temperature);
        start();
        let table = vrq::table_slopes(&p, temperature);
        inside()?;
        finite(&both_parts(&vrq::flat_table(n, &table, Dual::new(0.0, 0.0))))?;
        start();
        let state = vrq::state(temperature, &duals(&st.fractions, &slopes.fractions), &duals(&st.densities, &slopes.densities));
        let energies = both_parts(&vrq::contributions(&p, &table, &state, non_additive));
        inside()?;
        finite(&energies)?;
        Ok(energies)
    })();
    REAL_POWER_SLOPES.store(false, Relaxed);
    result
}

// ---- VR Mie operations

pub fn vr_parameters(l: &Lists, out: [usize; 2]) -> Result<MieSet, u8> {
    let n = l.count;
    let right = |list: &[f64]| list.len() == n;
    lengths(
        count_right(n)
            && right(&l.m)
            && right(&l.sigma)
            && right(&l.epsilon_k)
            && right(&l.lr)
            && right(&l.la)
            && l.k_ij.len() == n * n
            && l.l_ij.len() == n * n
            && out == MIE_SET,
    )?;
    limits(
        all_within(&l.m, 0.5, 64.0)
            && all_within(&l.sigma, 0.5, 16.0)
            && all_within(&l.epsilon_k, 0.1, 5000.0)
            && exponents_right(&l.lr, &l.la)
            && pairs_right(n, &l.k_ij)
            && pairs_right(n, &l.l_ij),
    )?;
    start();
    let p = vr::parameters(&vr::Lists {
        m: &l.m,
        sigma: &l.sigma,
        epsilon_k: &l.epsilon_k,
        lr: &l.lr,
        la: &l.la,
        k_ij: &l.k_ij,
        gamma_ij: &l.l_ij,
    });
    inside()?;
    let lists = [&l.m, &l.sigma, &l.epsilon_k, &l.lr, &l.la].into_iter().flat_map(|x| in_places(x)).collect();
    Ok(MieSet { count: n, lists, sheets: vr::flat(&p).to_vec() })
}

pub fn vr_diameters(s: &MieSet, t: f64, out: usize) -> Result<Vec<f64>, u8> {
    lengths(mie_set_right(s) && out == s.count)?;
    limits(temperature_right(t))?;
    start();
    let d = vr::diameters(&vr::set(s.count, &s.lists, &s.sheets), t);
    inside()?;
    finite(&d)?;
    Ok(d)
}

pub fn vr_radius(s: &MieSet, i: usize, j: usize, t: f64) -> Result<f64, u8> {
    lengths(mie_set_right(s) && pair_right(s.count, i, j))?;
    limits(temperature_right(t))?;
    start();
    let r = r0(&vr::set(s.count, &s.lists, &s.sheets), i, j, t);
    inside()?;
    Ok(r)
}

pub fn vr_dispersion(s: &MieSet, st: &State, diameters: &[f64], chain: bool) -> Result<f64, u8> {
    let n = s.count;
    lengths(mie_set_right(s) && st.fractions.len() == n && st.densities.len() == n && diameters.len() == n)?;
    limits(state_right(st))?;
    start();
    let p = vr::set(n, &s.lists, &s.sheets);
    let energy = vr::dispersion(&p, diameters, st.temperature, &st.fractions, &st.densities, chain);
    inside()?;
    finite(&[energy])?;
    Ok(energy)
}

/// Parameters, diameters and energy; the first refusal on the way is given.
pub fn vr_stage(l: &Lists, st: &State, chain: bool) -> Result<f64, u8> {
    let set = vr_parameters(l, MIE_SET)?;
    let diameters = vr_diameters(&set, st.temperature, set.count)?;
    vr_dispersion(&set, st, &diameters, chain)
}

// ---- two ends: the float run's refusals, then 8

/// The same functions for floats with two ends.
pub static ENDED: num_dual_ended::Functions = num_dual_ended::Functions {
    re: |x| x,
    sqrt: |x| x.call(sqrt),
    ln: |x| x.call(ln),
    ln_1p: |x| x.call(ln_1p),
    exp: |x| x.call(exp),
    exp_m1: |x| x.call(exp_m1),
    tanh: |x| x.call(tanh),
    powf: |x, y| x.call_two(y, powf),
};

fn points(list: &[f64]) -> Vec<F> {
    list.iter().map(|x| F::k(*x)).collect()
}
/// The results: 6, 7 if a float result is not finite, 8.
fn enclosed(results: &[F]) -> Result<Vec<F>, u8> {
    inside()?;
    finite(&results.iter().map(|r| r.v).collect::<Vec<_>>())?;
    if ends::take_eight() {
        return Err(8);
    }
    assert!(results.iter().all(|r| r.low <= r.v && r.v <= r.high), "a float result outside its ends");
    Ok(results.to_vec())
}
/// The float run's result alone: 6, 7.
fn float_of(result: F) -> Result<f64, u8> {
    inside()?;
    finite(&[result.v])?;
    Ok(result.v)
}
/// The ends one after another.
fn ends_of(results: Result<Vec<F>, u8>) -> Result<Vec<f64>, u8> {
    results.map(|list| list.iter().flat_map(|r| [r.low, r.high]).collect())
}
fn start_ends() {
    start();
    ends::take_eight();
}

pub fn vrq_energies_enclosed(s: &QuantumSet, st: &State, table: &[f64], non_additive: bool, out: usize) -> Result<Vec<F>, u8> {
    let n = s.count;
    quantum_set(s, state_lists_right(n, st, table) && out == 6)?;
    limits(state_right(st))?;
    let p = ended_vrq::set(n, &points(&s.m), &points(&s.sheets), &s.orders);
    start_ends();
    let (x, rho) = (points(&st.fractions), points(&st.densities));
    enclosed(&ended_vrq::energies(&p, &points(table), F::k(st.temperature), &x, &rho, non_additive))
}
pub fn vrq_energies_ends(s: &QuantumSet, st: &State, table: &[f64], non_additive: bool, out: usize) -> Result<Vec<f64>, u8> {
    ends_of(vrq_energies_enclosed(s, st, table, non_additive, out))
}

/// The tank's refusals first; then the same sum of the layers' energies by the text with two ends.
pub fn vrq_tank_enclosed(s: &QuantumSet, t: &Tank, non_additive: bool, out: usize) -> Result<Vec<F>, u8> {
    vrq_tank(s, t, non_additive, if out == 6 { 3 } else { 0 })?;
    let p = ended_vrq::set(s.count, &points(&s.m), &points(&s.sheets), &s.orders);
    let mut sum = [F::k(0.0); 3];
    start_ends();
    for l in 0..t.layers {
        let st = t.layer(s.count, l);
        let (table, _) = vrq_table(s, st.temperature, TABLE_AND_COUNTS)?;
        let (x, rho, temperature) = (points(&st.fractions), points(&st.densities), F::k(st.temperature));
        let energies = ended_vrq::energies(&p, &points(&table), temperature, &x, &rho, non_additive);
        for k in 0..if non_additive { 3 } else { 2 } {
            sum[k] = sum[k] + energies[k] * F::k(t.volumes[l]) * temperature;
        }
    }
    enclosed(&sum)
}
pub fn vrq_tank_ends(s: &QuantumSet, t: &Tank, non_additive: bool, out: usize) -> Result<Vec<f64>, u8> {
    ends_of(vrq_tank_enclosed(s, t, non_additive, out))
}

/// The diameter from radii: the text with two ends takes an r0, and its float run is the float operation.
fn vrq_diameter_run(s: &QuantumSet, i: usize, j: usize, t: f64, radii: [f64; 2], right: bool) -> Result<F, u8> {
    quantum_set(s, pair_right(s.count, i, j) && right)?;
    limits(temperature_right(t))?;
    let p = ended_vrq::set(s.count, &points(&s.m), &points(&s.sheets), &s.orders);
    start_ends();
    ends::set_r0(radii[1]);
    Ok(p.hs_diameter_ij(i, j, F::k(t), F::k(radii[0])))
}
pub fn vrq_diameter(s: &QuantumSet, i: usize, j: usize, t: f64, radii: [f64; 2]) -> Result<f64, u8> {
    float_of(vrq_diameter_run(s, i, j, t, radii, true)?)
}
/// The same from the pair's own radii, by the text in floats, which searches r0 itself.
pub fn vrq_diameter_searched(s: &QuantumSet, i: usize, j: usize, t: f64) -> Result<([f64; 2], f64), u8> {
    let (radii, _) = vrq_radii(s, i, j, t, [6, 3])?;
    start();
    let d = vrq::set(s.count, &s.m, &s.sheets, &s.orders).hs_diameter_ij(i, j, t, radii[0]);
    inside()?;
    finite(&[d])?;
    Ok(([radii[0], radii[2]], d))
}
pub fn vrq_diameter_enclosed(s: &QuantumSet, i: usize, j: usize, t: f64, radii: [f64; 2], out: usize) -> Result<Vec<F>, u8> {
    enclosed(&[vrq_diameter_run(s, i, j, t, radii, out == 2)?])
}
pub fn vrq_diameter_ends(s: &QuantumSet, i: usize, j: usize, t: f64, radii: [f64; 2], out: usize) -> Result<Vec<f64>, u8> {
    ends_of(vrq_diameter_enclosed(s, i, j, t, radii, out))
}

pub fn vr_dispersion_enclosed(s: &MieSet, st: &State, diameters: &[f64], chain: bool, out: usize) -> Result<Vec<F>, u8> {
    let n = s.count;
    lengths(mie_set_right(s) && st.fractions.len() == n && st.densities.len() == n && diameters.len() == n && out == 2)?;
    limits(state_right(st))?;
    let p = ended_vr::set(n, &points(&s.lists), &points(&s.sheets));
    start_ends();
    let (x, rho) = (points(&st.fractions), points(&st.densities));
    enclosed(&[ended_vr::dispersion(&p, &points(diameters), F::k(st.temperature), &x, &rho, chain)])
}
pub fn vr_dispersion_ends(s: &MieSet, st: &State, diameters: &[f64], chain: bool, out: usize) -> Result<Vec<f64>, u8> {
    ends_of(vr_dispersion_enclosed(s, st, diameters, chain, out))
}

fn vr_diameter_run(s: &MieSet, i: usize, j: usize, t: f64, r0: f64, right: bool) -> Result<F, u8> {
    lengths(mie_set_right(s) && pair_right(s.count, i, j) && right)?;
    limits(temperature_right(t))?;
    let p = ended_vr::set(s.count, &points(&s.lists), &points(&s.sheets));
    start_ends();
    ends::set_r0(r0);
    Ok(p.hs_diameter_ij(i, j, F::k(1.0) / F::k(t)))
}
pub fn vr_diameter(s: &MieSet, i: usize, j: usize, t: f64, r0: f64) -> Result<f64, u8> {
    float_of(vr_diameter_run(s, i, j, t, r0, true)?)
}
pub fn vr_diameter_searched(s: &MieSet, i: usize, j: usize, t: f64) -> Result<(f64, f64), u8> {
    let r0 = vr_radius(s, i, j, t)?;
    start();
    let d = vr::set(s.count, &s.lists, &s.sheets).hs_diameter_ij(i, j, 1.0 / t);
    inside()?;
    finite(&[d])?;
    Ok((r0, d))
}
pub fn vr_diameter_enclosed(s: &MieSet, i: usize, j: usize, t: f64, r0: f64, out: usize) -> Result<Vec<F>, u8> {
    enclosed(&[vr_diameter_run(s, i, j, t, r0, out == 2)?])
}
pub fn vr_diameter_ends(s: &MieSet, i: usize, j: usize, t: f64, r0: f64, out: usize) -> Result<Vec<f64>, u8> {
    ends_of(vr_diameter_enclosed(s, i, j, t, r0, out))
}

/// Equal bits, all NaNs being one.
pub fn same(a: f64, b: f64) -> bool {
    a.to_bits() == b.to_bits() || a.is_nan() && b.is_nan()
}
