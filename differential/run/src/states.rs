//! Lists, sets and states to try: usual ones, the ends of the limits, and what formulas stumble over.
use crate::oracle::{Lists, MieSet, QuantumSet, State};
use crate::random::Random;
use crate::sizes::{self, LISTS, SHEET, SIDE, at, mie_set, quantum_set};

/// How the numbers of a case are chosen.
#[derive(Clone, Copy, PartialEq)]
pub enum Kind {
    /// Fluids as they are.
    Usual,
    /// Evenly over the limits, in the logarithm where they span decades.
    Wide,
    /// The limits' ends and their neighbours inside, among usual numbers.
    Ends,
}

fn kind(g: &mut Random) -> Kind {
    g.one_of(&[Kind::Usual, Kind::Usual, Kind::Usual, Kind::Usual, Kind::Wide, Kind::Ends])
}

fn number(g: &mut Random, kind: Kind, usual: (f64, f64), low: f64, high: f64) -> f64 {
    match kind {
        Kind::Usual => g.within(usual.0, usual.1),
        Kind::Wide => g.spread(low, high),
        Kind::Ends => match g.below(6) {
            0 => low,
            1 => high,
            2 => low.next_up(),
            3 => high.next_down(),
            _ => g.within(usual.0, usual.1),
        },
    }
}

/// lr and la with 3 < la < lr <= 64, also close to 3, to 4, to 64 and to each other.
fn exponents(g: &mut Random, kind: Kind) -> (f64, f64) {
    let (lr, la) = match kind {
        Kind::Usual => (g.within(8.0, 20.0), if g.once_in(2) { 6.0 } else { g.within(5.0, 7.0) }),
        Kind::Wide => {
            let la = 3.0 + g.spread(1e-9, 20.0);
            (la + (64.0 - la) * g.unit(), la)
        }
        Kind::Ends => {
            let la = g.one_of(&[3.0f64.next_up(), 3.0 + 1e-6, 3.5, 4.0, 4.0f64.next_up(), 6.0, 31.0, 63.5]);
            let close = la * (1.0 + g.one_of(&[1.0 / 191.0, 1.0 / 192.0, 1.0 / 193.0, 1e-6, 1e-15]));
            (g.one_of(&[64.0, 64.0f64.next_down(), close, close.next_up(), la.next_up(), 4.0, 12.0, la + 2.0]), la)
        }
    };
    if 3.0 < la && la < lr && lr <= 64.0 { (lr, la) } else { (12.0, 6.0) }
}

/// A pair list: +0 on the diagonal, equal bits on both sides.
fn pairs(g: &mut Random, n: usize, kind: Kind) -> Vec<f64> {
    let mut list = vec![0.0; n * n];
    if g.once_in(3) {
        return list;
    }
    for i in 0..n {
        for j in 0..i {
            let x = match kind {
                Kind::Usual => g.within(-0.1, 0.1),
                Kind::Wide => g.within(-0.9, 0.9),
                Kind::Ends => g.one_of(&[0.9, -0.9, -0.0, 0.0, 0.9f64.next_down(), 5e-324, 0.05]),
            };
            (list[i * n + j], list[j * n + i]) = (x, x);
        }
    }
    list
}

/// Orders: mostly mixes that go together (0 with 1, 0 with 2), also 1 with 2 and above 2.
fn orders(g: &mut Random, n: usize) -> Vec<u8> {
    let highest = g.one_of(&[0u8, 1, 1, 2, 2]);
    let mut list: Vec<u8> = (0..n).map(|_| if g.once_in(3) { 0 } else { highest }).collect();
    if g.once_in(20) {
        list[g.below(n)] = g.one_of(&[1, 2, 3, 4, 128, 255]);
    }
    if g.once_in(30) {
        list.iter_mut().for_each(|o| *o = g.below(4) as u8);
    }
    list
}

/// Component lists inside the limits.
pub fn lists(g: &mut Random, quantum: bool) -> Lists {
    let kind = kind(g);
    lists_of(g, quantum, kind)
}

pub fn lists_of(g: &mut Random, quantum: bool, kind: Kind) -> Lists {
    let counts: Vec<usize> = [1, 1, 1, 2, 2, 2, 3, 3].into_iter().chain(4..=SIDE).collect();
    let n = g.one_of(&counts);
    lists_with(g, quantum, kind, n)
}

pub fn lists_with(g: &mut Random, quantum: bool, kind: Kind, n: usize) -> Lists {
    let exponents: Vec<(f64, f64)> = (0..n).map(|_| exponents(g, kind)).collect();
    let epsilon = if quantum { (5.0, 60.0) } else { (90.0, 400.0) };
    let pair_kind = if g.once_in(8) { Kind::Ends } else { kind };
    let l = Lists {
        count: n,
        m: (0..n).map(|_| if quantum { 1.0 } else { number(g, kind, (1.0, 4.0), 0.5, 64.0) }).collect(),
        sigma: (0..n).map(|_| number(g, kind, (2.5, 4.5), 0.5, 16.0)).collect(),
        epsilon_k: (0..n).map(|_| number(g, kind, epsilon, 0.1, 5000.0)).collect(),
        lr: exponents.iter().map(|e| e.0).collect(),
        la: exponents.iter().map(|e| e.1).collect(),
        mass: (0..n).map(|_| number(g, kind, (3e-27, 5e-26), 1e-27, 1e-23)).collect(),
        order: orders(g, n),
        k_ij: pairs(g, n, pair_kind),
        l_ij: pairs(g, n, pair_kind),
    };
    if !quantum && g.once_in(4) {
        return Lists { m: vec![1.0; n], ..l };
    }
    l
}

/// One thing wrong with the lists, or nothing that shows.
pub fn spoil(g: &mut Random, l: &mut Lists, quantum: bool) {
    let n = l.count;
    let i = g.below(n);
    let (e, f) = (g.below(n * n), g.below(n * n));
    let outside = |g: &mut Random, low: f64, high: f64| {
        let odd = g.odd();
        g.one_of(&[low.next_down(), high.next_up(), odd, f64::NAN])
    };
    match g.below(14) {
        0 => l.count = g.one_of(&[0, SIDE + 1, n + 1, n.wrapping_sub(1), usize::MAX, 1 << 32, 1 << 63]),
        1 => {
            let lists = [&mut l.m, &mut l.sigma, &mut l.epsilon_k, &mut l.lr, &mut l.la, &mut l.mass, &mut l.k_ij, &mut l.l_ij];
            let list = lists.into_iter().nth(g.below(8)).unwrap();
            if g.once_in(2) { list.push(1.0) } else { list.truncate(list.len() - 1) }
        }
        2 => l.order.truncate(n - 1),
        3 => l.sigma[i] = outside(g, 0.5, 16.0),
        4 => l.epsilon_k[i] = outside(g, 0.1, 5000.0),
        5 => l.mass[i] = outside(g, 1e-27, 1e-23),
        6 => l.la[i] = outside(g, 3.0f64.next_up(), l.lr[i]),
        7 => l.lr[i] = outside(g, l.la[i], 64.0),
        8 => l.k_ij[e] = outside(g, -0.9, 0.9),
        9 => l.l_ij[f] = outside(g, -0.9, 0.9),
        10 => l.k_ij[i * n + i] = -0.0,
        11 if quantum => l.m[i] = g.one_of(&[1.0f64.next_up(), 1.0f64.next_down(), 0.0, 2.0, f64::NAN, f64::INFINITY, -1.0]),
        11 => l.m[i] = outside(g, 0.5, 64.0),
        12 => {
            // two things at once: the first number is to be given
            l.order[i] = g.one_of(&[3, 2, 1]);
            l.m[i] = g.one_of(&[2.0, 1.0]);
            l.sigma[i] = g.one_of(&[0.4, 3.0]);
        }
        _ => {
            // exponents that round to one another
            l.lr[i] = l.la[i].next_up();
        }
    }
}

pub fn temperature(g: &mut Random, quantum: bool) -> f64 {
    match g.below(40) {
        0 => 1.0,
        1 => 2000.0,
        2 => g.one_of(&[1.0f64.next_down(), 2000.0f64.next_up(), 0.0, -0.0, -300.0, f64::NAN, f64::INFINITY]),
        3..6 => g.spread(1.0, 2000.0),
        _ if quantum => g.within(15.0, 300.0),
        _ => g.within(150.0, 600.0),
    }
}

/// Fractions that sum to one, densities of a packing that fluids have.
pub fn quiet_state(g: &mut Random, n: usize, m: &[f64], diameters: &[f64]) -> State {
    let mut fractions: Vec<f64> = (0..n).map(|_| g.within(0.05, 1.0)).collect();
    let sum: f64 = fractions.iter().sum();
    fractions.iter_mut().for_each(|x| *x /= sum);
    let size: f64 = (0..n).map(|i| fractions[i] * m[i] * diameters[i].powi(3)).sum();
    let total = g.within(0.01, 0.5) / (size * std::f64::consts::FRAC_PI_6);
    let densities = fractions.iter().map(|x| (x * total).clamp(0.0, 1.0)).collect();
    State { temperature: 300.0, fractions, densities }
}

/// Fractions and densities for a set with these diameters and m: packing mostly low, sometimes close to 1.
pub fn state(g: &mut Random, n: usize, m: &[f64], diameters: &[f64], quantum: bool) -> State {
    let mut fractions: Vec<f64> = (0..n).map(|_| g.unit()).collect();
    if !g.once_in(5) {
        let sum: f64 = fractions.iter().sum();
        fractions.iter_mut().for_each(|x| *x /= sum);
    }
    let packing = match g.below(12) {
        0 => g.one_of(&[1.0, 1.0 - 1e-16, 1.0 + 1e-15, 1.0 - 1e-9, 0.999, 1.001, 1.2]),
        1 => g.spread(1e-12, 1.0),
        _ => g.within(0.01, 0.5),
    };
    let size: f64 = (0..n).map(|i| fractions[i] * m[i] * diameters[i].powi(3)).sum();
    let total = packing / (size * std::f64::consts::FRAC_PI_6);
    let mut densities: Vec<f64> = fractions.iter().map(|x| (x * total).clamp(0.0, 1.0)).collect();
    if densities.iter().any(|x| x.is_nan()) {
        densities = vec![0.01 / n as f64; n];
    }
    let i = g.below(n);
    match g.below(24) {
        0 => densities.fill(g.one_of(&[0.0, 0.0, -0.0])),
        1 => densities[i] = 5e-324,
        2 => densities.fill(5e-324),
        3 => densities[i] = -0.0,
        4 => densities[i] = g.one_of(&[1.0, 1.0f64.next_up(), -5e-324, f64::NAN, 0.0, f64::INFINITY]),
        5 => fractions.fill(g.one_of(&[0.0, -0.0, 1.0])),
        6 => fractions[i] = -0.0,
        7 => fractions[i] = g.one_of(&[1.0, 1.0f64.next_up(), -5e-324, f64::NAN, 0.0, 5e-324]),
        8 => densities[i] = densities[i].next_up().min(1.0),
        9 => densities.truncate(n - 1),
        10 => fractions.push(0.5),
        _ => {}
    }
    State { temperature: temperature(g, quantum), fractions, densities }
}

/// A list filled by hand: scaled a little entry by entry, or with odd floats among its entries.
pub fn by_hand(g: &mut Random, list: &mut [f64]) {
    match g.below(8) {
        0 | 1 => list.iter_mut().for_each(|x| *x *= g.within(0.97, 1.03)),
        2 => {
            for _ in 0..1 + g.below(3) {
                let e = g.below(list.len());
                list[e] = g.odd();
            }
        }
        3 => {
            let e = g.below(list.len());
            list[e] = -list[e];
        }
        _ => {}
    }
}

/// The components' diameters in a table.
pub fn diameters(n: usize, table: &[f64]) -> Vec<f64> {
    (0..n).map(|i| table[at(sizes::table::HS_DIAMETER, i, i)]).collect()
}

/// A quantum set filled by hand from one that was made.
pub fn quantum_set_by_hand(g: &mut Random, s: &mut QuantumSet) {
    let e = at(0, g.below(s.count), g.below(s.count));
    match g.below(10) {
        0 => s.sheets.iter_mut().for_each(|x| *x *= g.within(0.97, 1.03)),
        1 => s.sheets[SHEET * g.below(6) + e] = g.odd(),
        2 => {
            s.sheets[g.one_of(&[quantum_set::LAMBDA_R_IJ, quantum_set::LAMBDA_A_IJ]) + e] =
                g.one_of(&[1.0, 2.0, 3.0, 4.0, -1.0, 0.0, 186.0, 190.0, 192.0])
        }
        3 => s.sheets[quantum_set::SIGMA_IJ + e] = g.one_of(&[0.03125, 32.0, 0.02, 33.0]),
        4 if g.once_in(2) => s.m[g.below(SIDE)] = g.odd(),
        // the mass is read by no elementary call of order 0
        4 => {
            s.sheets[quantum_set::MASS_IJ + e] = g.one_of(&[0.0, -0.0, f64::NAN, 5e-324, f64::INFINITY, 1e-300]);
            s.orders[e] = g.one_of(&[0, 0, 0, 1]);
        }
        5 => s.orders[e] = g.below(3) as u8,
        6 => s.orders[g.below(SHEET)] = g.one_of(&[0, 1, 2, 3, 255]),
        7 => s.count = g.one_of(&[0, 1, s.count, SIDE, SIDE + 1, usize::MAX]),
        8 => match g.below(3) {
            0 => s.m.truncate(SIDE - 1),
            1 => s.sheets.push(0.0),
            _ => s.orders.truncate(SHEET - 1),
        },
        // unused places are not read
        _ => (0..SHEET).filter(|k| k / SIDE >= s.count || k % SIDE >= s.count).for_each(|k| s.sheets[k] = f64::NAN),
    }
}

pub fn mie_set_by_hand(g: &mut Random, s: &mut MieSet) {
    let (i, j) = (g.below(s.count), g.below(s.count));
    let e = at(0, i, j);
    match g.below(8) {
        0 => s.sheets.iter_mut().for_each(|x| *x *= g.within(0.97, 1.03)),
        1 => s.sheets[SHEET * g.below(6) + e] = g.odd(),
        2 => s.sheets[g.one_of(&[mie_set::LR_IJ, mie_set::LA_IJ]) + e] = g.one_of(&[1.0, 2.0, 3.0, 4.0, -1.0, 0.0, 96.0, 190.0, 192.0]),
        3 => s.lists[SIDE * g.below(5) + i] = g.odd(),
        4 if g.once_in(2) => s.lists.iter_mut().for_each(|x| *x *= g.within(0.99, 1.01)),
        // a diameter is multiplied by sigma at the end
        4 => s.sheets[at(mie_set::SIGMA_IJ, i, i)] = g.one_of(&[f64::NAN, f64::INFINITY, -1.0, 1e308, f64::MAX, 0.0]),
        5 => s.count = g.one_of(&[0, 1, s.count, SIDE, SIDE + 1, usize::MAX]),
        6 if g.once_in(2) => s.lists.truncate(LISTS - 1),
        6 => s.sheets.push(0.0),
        _ => (0..SHEET).filter(|k| k / SIDE >= s.count || k % SIDE >= s.count).for_each(|k| s.sheets[k] = f64::NAN),
    }
}
