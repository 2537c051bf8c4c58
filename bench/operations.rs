//! The operations of the C boundary beside the unchanged Rust text on the platform's functions, built at the same level;
//! and the two-ended ones beside the port's own float run.
use crate::best_of_two;
use crate::port;
use crate::random::Random;
use crate::sizes::{CARD, COUNTS, DESK_BYTES, DESK_FLOATS, DESK_PLACES, LISTS, SHEET, SHEETS, SIDE, TABLE};
use num_dual::Dual;
use plain::saftvrmie::eos as vr;
use plain::saftvrqmie::eos::driver as vrq;
use std::hint::black_box;
use std::time::Instant;

/// Fluids of one count, a few so that searches of several lengths are met.
struct Fluid {
    m: Vec<f64>,
    sigma: Vec<f64>,
    epsilon_k: Vec<f64>,
    lr: Vec<f64>,
    la: Vec<f64>,
    mass: Vec<f64>,
    order: Vec<u8>,
    pairs: Vec<f64>,
    temperature: f64,
    x: Vec<f64>,
    rho: Vec<f64>,
}

fn fluids(n: usize, order: u8, quantum: bool) -> Vec<Fluid> {
    let mut g = Random(3);
    let mut list = |low: f64, high: f64| -> Vec<f64> { (0..n).map(|_| g.within(low, high)).collect() };
    (0..4)
        .map(|_| Fluid {
            m: if quantum { vec![1.0; n] } else { list(1.0, 3.0) },
            sigma: list(2.5, 4.0),
            epsilon_k: if quantum { list(5.0, 60.0) } else { list(100.0, 400.0) },
            lr: list(8.0, 20.0),
            la: list(5.0, 7.0),
            mass: list(3e-27, 5e-26),
            order: vec![order; n],
            pairs: vec![0.0; n * n],
            temperature: if quantum { list(20.0, 300.0)[0] } else { list(200.0, 500.0)[0] },
            x: vec![1.0 / n as f64; n],
            rho: vec![0.01 / n as f64; n],
        })
        .collect()
}

impl Fluid {
    fn quantum_lists(&self) -> vrq::Lists<'_> {
        vrq::Lists {
            m: &self.m,
            sigma: &self.sigma,
            epsilon_k: &self.epsilon_k,
            lr: &self.lr,
            la: &self.la,
            mass: &self.mass,
            order: &self.order,
            k_ij: &self.pairs,
            l_ij: &self.pairs,
        }
    }
    fn mie_lists(&self) -> vr::Lists<'_> {
        vr::Lists {
            m: &self.m,
            sigma: &self.sigma,
            epsilon_k: &self.epsilon_k,
            lr: &self.lr,
            la: &self.la,
            k_ij: &self.pairs,
            gamma_ij: &self.pairs,
        }
    }
}

/// Rows by operation, in the order in which operations were first measured.
#[derive(Default)]
struct Rows(Vec<(&'static str, Vec<String>)>);

/// All of `k` fluids through one function.
fn over<T>(k: usize, f: impl Fn(usize) -> T) -> impl Fn() {
    move || (0..k).for_each(|i| drop(black_box(f(black_box(i)))))
}

/// At most this ratio, where one was set.
fn goal(name: &str) -> Option<f64> {
    match name {
        "quantum table" | "quantum energies" => Some(0.6),
        "VR Mie dispersion" | "VR Mie and chain" => Some(0.75),
        "VR Mie diameters" => Some(1.0),
        "energies with slopes" => Some(2.5),
        "slopes beside the Rust's" => Some(0.75),
        "quantum energies' total" | "tank of 4 layers" | "tank of 4 layers, ends" => Some(1.05),
        _ if name.starts_with("query,") => Some(1.1),
        _ if name.ends_with("diameter, two ends") => Some(4.0),
        _ if name.ends_with("two ends") => Some(10.0),
        _ => None,
    }
}

impl Rows {
    /// One row: both sides over the same `k` fluids, microseconds a call.
    fn row<A, B>(
        &mut self,
        name: &'static str,
        n: usize,
        order: Option<u8>,
        k: usize,
        rust: impl Fn(usize) -> A,
        port: impl Fn(usize) -> B,
    ) {
        let (rust, port) = best_of_two(over(k, rust), over(k, port));
        self.add(name, n, order, rust / k as f64, port / k as f64);
    }

    fn add(&mut self, name: &'static str, n: usize, order: Option<u8>, one: f64, other: f64) {
        let (one, other) = (one / 1000.0, other / 1000.0);
        let order = order.map_or("-".into(), |o| o.to_string());
        let goal = goal(name).map_or("-".into(), |g| format!("{g:.2}"));
        let line = format!("{name:<26} {n:>2} {order:>5} {one:>10.2} {other:>10.2} {:>6.2}x {goal:>6}", other / one);
        match self.0.iter_mut().find(|r| r.0 == name) {
            Some(rows) => rows.1.push(line),
            None => self.0.push((name, vec![line])),
        }
    }
}

fn quantum(rows: &mut Rows, n: usize, order: u8) {
    let fluids = fluids(n, order, true);
    let k = fluids.len();
    if let (Some(f), 0) = (port::VRQ_PARAMETERS, order) {
        let ours = |i: usize| {
            let (mut m, mut sheets, mut orders, fluid) = ([0.0; SIDE], [0.0; SHEETS], [0u8; SHEET], &fluids[i]);
            let p = |l: &Vec<f64>| l.as_ptr();
            let nn = n * n;
            let number = unsafe {
                f(
                    n, p(&fluid.m), n, p(&fluid.sigma), n, p(&fluid.epsilon_k), n, p(&fluid.lr), n, p(&fluid.la), n,
                    p(&fluid.mass), n, fluid.order.as_ptr(), n, p(&fluid.pairs), nn, p(&fluid.pairs), nn, m.as_mut_ptr(), SIDE,
                    sheets.as_mut_ptr(), SHEETS, orders.as_mut_ptr(), SHEET,
                )
            };
            assert!(number == 0);
            sheets
        };
        rows.row("quantum parameters", n, None, k, |i| vrq::parameters(&fluids[i].quantum_lists()), ours);
    }
    let sets: Vec<_> = fluids.iter().map(|f| vrq::parameters(&f.quantum_lists()).ok().unwrap()).collect();
    let flat: Vec<_> = sets.iter().map(vrq::flat).collect();
    if let Some(f) = port::VRQ_TABLE {
        let ours = |i: usize| {
            let (mut table, mut counts, (sheets, orders)) = ([0.0; TABLE], [0u8; COUNTS], &flat[i]);
            let number = unsafe {
                f(
                    n, [1.0; SIDE].as_ptr(), SIDE, sheets.as_ptr(), SHEETS, orders.as_ptr(), SHEET, fluids[i].temperature,
                    table.as_mut_ptr(), TABLE, counts.as_mut_ptr(), COUNTS,
                )
            };
            assert!(number == 0);
            table
        };
        rows.row("quantum table", n, Some(order), k, |i| vrq::table(&sets[i], fluids[i].temperature), ours);
    }
    let tables: Vec<_> = (0..k).map(|i| vrq::table(&sets[i], fluids[i].temperature)).collect();
    if let Some(f) = port::VRQ_ENERGIES {
        let ready: Vec<_> =
            (0..k).map(|i| (vrq::properties(n, &tables[i]), vrq::state(fluids[i].temperature, &fluids[i].x, &fluids[i].rho))).collect();
        let ours = |i: usize| {
            let (mut out, (sheets, orders), fluid) = ([0.0; 3], &flat[i], &fluids[i]);
            let number = unsafe {
                f(
                    n, [1.0; SIDE].as_ptr(), SIDE, sheets.as_ptr(), SHEETS, orders.as_ptr(), SHEET, fluid.temperature, fluid.x.as_ptr(), n,
                    fluid.rho.as_ptr(), n, tables[i].as_ptr(), TABLE, true, out.as_mut_ptr(), 3,
                )
            };
            assert!(number == 0);
            out
        };
        rows.row("quantum energies", n, Some(order), k, |i| vrq::contributions(&sets[i], &ready[i].0, &ready[i].1, true), ours);
    }
}

fn vr_mie(rows: &mut Rows, n: usize) {
    let fluids = fluids(n, 0, false);
    let k = fluids.len();
    if let Some(f) = port::VR_PARAMETERS {
        let ours = |i: usize| {
            let (mut lists, mut sheets, nn, fluid) = ([0.0; LISTS], [0.0; SHEETS], n * n, &fluids[i]);
            let p = |l: &Vec<f64>| l.as_ptr();
            let number = unsafe {
                f(
                    n, p(&fluid.m), n, p(&fluid.sigma), n, p(&fluid.epsilon_k), n, p(&fluid.lr), n, p(&fluid.la), n,
                    p(&fluid.pairs), nn, p(&fluid.pairs), nn, lists.as_mut_ptr(), LISTS, sheets.as_mut_ptr(), SHEETS,
                )
            };
            assert!(number == 0);
            sheets
        };
        rows.row("VR Mie parameters", n, None, k, |i| vr::parameters(&fluids[i].mie_lists()), ours);
    }
    let sets: Vec<_> = fluids.iter().map(|f| vr::parameters(&f.mie_lists())).collect();
    let flat: Vec<_> = sets.iter().map(vr::flat).collect();
    let lists: Vec<Vec<f64>> = fluids
        .iter()
        .map(|f| [&f.m, &f.sigma, &f.epsilon_k, &f.lr, &f.la].iter().flat_map(|l| (0..SIDE).map(|i| *l.get(i).unwrap_or(&0.0))).collect())
        .collect();
    if let Some(f) = port::VR_DIAMETERS {
        let ours = |i: usize| {
            let mut d = [0.0; SIDE];
            let number = unsafe { f(n, lists[i].as_ptr(), LISTS, flat[i].as_ptr(), SHEETS, fluids[i].temperature, d.as_mut_ptr(), n) };
            assert!(number == 0);
            d
        };
        rows.row("VR Mie diameters", n, None, k, |i| vr::diameters(&sets[i], fluids[i].temperature), ours);
    }
    let diameters: Vec<_> = (0..k).map(|i| vr::diameters(&sets[i], fluids[i].temperature)).collect();
    if let Some(f) = port::VR_DISPERSION {
        let states: Vec<_> = fluids.iter().map(|f| vr::state(f.temperature, &f.x, &f.rho)).collect();
        let vectors: Vec<_> = diameters.iter().map(|d| vr::vector(d)).collect();
        for (chain, name) in [(false, "VR Mie dispersion"), (true, "VR Mie and chain")] {
            let ours = |i: usize| {
                let (mut out, fluid) = (0.0, &fluids[i]);
                let number = unsafe {
                    f(
                        n, lists[i].as_ptr(), LISTS, flat[i].as_ptr(), SHEETS, fluid.temperature, fluid.x.as_ptr(), n,
                        fluid.rho.as_ptr(), n, diameters[i].as_ptr(), n, chain, &mut out,
                    )
                };
                assert!(number == 0);
                out
            };
            rows.row(name, n, None, k, |i| vr::contribution(&sets[i], &vectors[i], &states[i], chain), ours);
        }
    }
}

/// The bytes of a fluid's quantum card, older or newer.
fn card_of(f: &Fluid, n: usize, newer: bool) -> Vec<u8> {
    let mut fields = vec![(2, 2 * newer as u64), (4, n as u64)];
    for i in 0..n {
        fields.extend([f.sigma[i], f.epsilon_k[i], f.lr[i], f.la[i], f.mass[i]].map(|x| (64, x.to_bits())));
        fields.push((2, f.order[i] as u64));
    }
    for i in 0..n {
        for x in (i + 1..n).flat_map(|j| [f.pairs[n * i + j].to_bits(); 2]) {
            fields.extend(if newer && x == 0 { vec![(1, 0)] } else { vec![(newer as u32, 1), (64, x)] });
        }
    }
    let bits: Vec<u8> = fields.iter().flat_map(|&(w, v): &(u32, u64)| (0..w).rev().map(move |k| (v >> k & 1) as u8)).collect();
    bits.chunks(8).map(|c| c.iter().enumerate().map(|(k, b)| b << (7 - k)).sum()).collect()
}

/// A card, beside the parameters of its lists.
fn quantum_card(rows: &mut Rows, n: usize, newer: bool) {
    let reader = if newer { port::NEWER_CARD_PARAMETERS } else { port::CARD_PARAMETERS };
    let (Some(card), Some(plain)) = (reader, port::VRQ_PARAMETERS) else { return };
    let fluids = fluids(n, 0, true);
    let cards: Vec<_> = fluids.iter().map(|f| card_of(f, n, newer)).collect();
    let lists = |i: usize| {
        let (mut m, mut sheets, mut orders, fluid) = ([0.0; SIDE], [0.0; SHEETS], [0u8; SHEET], &fluids[i]);
        let p = |l: &Vec<f64>| l.as_ptr();
        let nn = n * n;
        let number = unsafe {
            plain(
                n, p(&fluid.m), n, p(&fluid.sigma), n, p(&fluid.epsilon_k), n, p(&fluid.lr), n, p(&fluid.la), n, p(&fluid.mass), n,
                fluid.order.as_ptr(), n, p(&fluid.pairs), nn, p(&fluid.pairs), nn, m.as_mut_ptr(), SIDE, sheets.as_mut_ptr(), SHEETS,
                orders.as_mut_ptr(), SHEET,
            )
        };
        assert!(number == 0);
        sheets
    };
    let read = |i: usize| {
        let (mut model, mut count, mut m, mut lists) = (0, 0, [0.0; SIDE], [0.0; 5 * SIDE]);
        let (mut sheets, mut orders, bytes) = ([0.0; SHEETS], [0u8; SHEET], &cards[i]);
        let number = unsafe {
            card(
                bytes.as_ptr(), bytes.len(), &mut model, &mut count, m.as_mut_ptr(), SIDE, lists.as_mut_ptr(), 5 * SIDE,
                sheets.as_mut_ptr(), SHEETS, orders.as_mut_ptr(), SHEET,
            )
        };
        assert!(number == 0);
        sheets
    };
    rows.row(if newer { "newer quantum card" } else { "quantum card" }, n, None, fluids.len(), &lists, &read);
    let mover = if newer { port::CARD_TO_OLDER } else { port::CARD_TO_NEWER };
    let (Some(mover), Some(writer)) = (mover, port::VRQ_CARD) else { return };
    let moved = |i: usize| {
        let (mut out, mut length) = ([0u8; CARD], 0);
        let number = unsafe { mover(cards[i].as_ptr(), cards[i].len(), out.as_mut_ptr(), out.len(), &mut length) };
        assert!(number == 0);
        out
    };
    let written = |i: usize| {
        let (mut out, mut length, fluid) = ([0u8; CARD], 0, &fluids[i]);
        let p = |l: &Vec<f64>| l.as_ptr();
        let nn = n * n;
        let number = unsafe {
            writer(
                n, p(&fluid.m), n, p(&fluid.sigma), n, p(&fluid.epsilon_k), n, p(&fluid.lr), n, p(&fluid.la), n, p(&fluid.mass), n,
                fluid.order.as_ptr(), n, p(&fluid.pairs), nn, p(&fluid.pairs), nn, out.as_mut_ptr(), out.len(), &mut length,
            )
        };
        assert!(number == 0);
        out
    };
    if n <= 8 {
        rows.row(if newer { "card to older" } else { "card to newer" }, n, None, fluids.len(), &read, moved);
    }
    if !newer {
        rows.row("quantum card written", n, None, fluids.len(), &lists, written);
    }
}

/// Two ends of the quantum energies and of a pair's diameter, beside their floats.
fn quantum_ends(rows: &mut Rows, n: usize, order: u8) {
    let (Some(energies), Some(ends), Some(radii), Some(diameter), Some(diameter_ends)) =
        (port::VRQ_ENERGIES, port::VRQ_ENERGIES_ENDS, port::VRQ_RADII, port::VRQ_DIAMETER, port::VRQ_DIAMETER_ENDS)
    else {
        return;
    };
    let fluids = fluids(n, order, true);
    let k = fluids.len();
    let sets: Vec<_> = fluids.iter().map(|f| vrq::parameters(&f.quantum_lists()).ok().unwrap()).collect();
    let flat: Vec<_> = sets.iter().map(vrq::flat).collect();
    let tables: Vec<_> = (0..k).map(|i| vrq::table(&sets[i], fluids[i].temperature)).collect();
    let worked = |f: port::Energies, places: usize, i: usize| {
        let (mut out, (sheets, orders), fluid) = ([0.0; 6], &flat[i], &fluids[i]);
        let number = unsafe {
            f(
                n, [1.0; SIDE].as_ptr(), SIDE, sheets.as_ptr(), SHEETS, orders.as_ptr(), SHEET, fluid.temperature, fluid.x.as_ptr(), n,
                fluid.rho.as_ptr(), n, tables[i].as_ptr(), TABLE, true, out.as_mut_ptr(), places,
            )
        };
        assert!(number == 0);
        out
    };
    rows.row("quantum energies, two ends", n, Some(order), k, |i| worked(energies, 3, i), |i| worked(ends, 6, i));
    if let Some(total) = port::VRQ_TOTAL {
        rows.row("quantum energies' total", n, Some(order), k, |i| worked(energies, 3, i), |i| worked(total, 4, i));
    }
    if n > 1 {
        return;
    }
    let searched = |i: usize| {
        let (mut out, mut counts, (sheets, orders)) = ([0.0; 6], [0u8; 3], &flat[i]);
        let t = fluids[i].temperature;
        let number = unsafe {
            radii(
                1, [1.0; SIDE].as_ptr(), SIDE, sheets.as_ptr(), SHEETS, orders.as_ptr(), SHEET, 0, 0, t, out.as_mut_ptr(), 6,
                counts.as_mut_ptr(), 3,
            )
        };
        assert!(number == 0);
        out
    };
    let found: Vec<_> = (0..k).map(searched).collect();
    let two = |i: usize| {
        let (mut out, (sheets, orders)) = ([0.0; 2], &flat[i]);
        let number = unsafe {
            diameter_ends(
                1, [1.0; SIDE].as_ptr(), SIDE, sheets.as_ptr(), SHEETS, orders.as_ptr(), SHEET, 0, 0, fluids[i].temperature, found[i][0],
                found[i][2], out.as_mut_ptr(), 2,
            )
        };
        assert!(number == 0);
        out
    };
    let float = |i: usize| {
        let (mut out, (sheets, orders)) = (0.0, &flat[i]);
        let number = unsafe {
            diameter(
                1, [1.0; SIDE].as_ptr(), SIDE, sheets.as_ptr(), SHEETS, orders.as_ptr(), SHEET, 0, 0, fluids[i].temperature, found[i][0],
                found[i][2], &mut out,
            )
        };
        assert!(number == 0);
        out
    };
    (0..k).for_each(|i| assert!(two(i)[0] <= float(i) && float(i) <= two(i)[1]));
    rows.row("quantum diameter, two ends", n, Some(order), k, float, two);
}

/// Energies with slopes beside a table and a call of the energies, and beside the Rust on dual numbers with the platform's functions.
fn pressure(rows: &mut Rows, n: usize, order: u8) {
    let (Some(table), Some(energies), Some(slopes)) = (port::VRQ_TABLE, port::VRQ_ENERGIES, port::VRQ_ENERGIES_SLOPES) else { return };
    let fluids = fluids(n, order, true);
    let k = fluids.len();
    let sets: Vec<_> = fluids.iter().map(|f| vrq::parameters(&f.quantum_lists()).ok().unwrap()).collect();
    let flat: Vec<_> = sets.iter().map(vrq::flat).collect();
    let (m, dx, drho) = ([1.0; SIDE], vec![0.0; n], vec![1.0; n]);
    let floats = |i: usize| {
        let (mut out, mut values, mut counts, (sheets, orders), f) = ([0.0; 3], [0.0; TABLE], [0u8; COUNTS], &flat[i], &fluids[i]);
        let numbers = unsafe {
            [
                table(
                    n, m.as_ptr(), SIDE, sheets.as_ptr(), SHEETS, orders.as_ptr(), SHEET, f.temperature, values.as_mut_ptr(), TABLE,
                    counts.as_mut_ptr(), COUNTS,
                ),
                energies(
                    n, m.as_ptr(), SIDE, sheets.as_ptr(), SHEETS, orders.as_ptr(), SHEET, f.temperature, f.x.as_ptr(), n, f.rho.as_ptr(),
                    n, values.as_ptr(), TABLE, true, out.as_mut_ptr(), 3,
                ),
            ]
        };
        assert!(numbers == [0, 0]);
        out
    };
    let sloped = |i: usize| {
        let (mut out, (sheets, orders), f) = ([0.0; 6], &flat[i], &fluids[i]);
        let number = unsafe {
            slopes(
                n, m.as_ptr(), SIDE, sheets.as_ptr(), SHEETS, orders.as_ptr(), SHEET, f.temperature, 1.0, f.x.as_ptr(), n, dx.as_ptr(), n,
                f.rho.as_ptr(), n, drho.as_ptr(), n, true, out.as_mut_ptr(), 6,
            )
        };
        assert!(number == 0);
        out
    };
    let duals = |l: &[f64], d: &[f64]| l.iter().zip(d).map(|(x, y)| Dual::new(*x, *y)).collect::<Vec<_>>();
    let rust = |i: usize| {
        let (f, t) = (&fluids[i], Dual::new(fluids[i].temperature, 1.0));
        vrq::contributions(&sets[i], &vrq::table_slopes(&sets[i], t), &vrq::state(t, &duals(&f.x, &dx), &duals(&f.rho, &drho)), true)
    };
    rows.row("energies with slopes", n, Some(order), k, floats, sloped);
    rows.row("slopes beside the Rust's", n, Some(order), k, rust, sloped);
}

/// The same of SAFT-VR Mie, where the library has them.
/// A tank of four layers beside a table and a call of the energies, or of their ends, for each.
fn tanks(rows: &mut Rows, n: usize, order: u8) {
    let (Some(table), Some(energies), Some(ends), Some(tank), Some(tank_ends)) =
        (port::VRQ_TABLE, port::VRQ_ENERGIES, port::VRQ_ENERGIES_ENDS, port::VRQ_TANK, port::VRQ_TANK_ENDS)
    else {
        return;
    };
    const LAYERS: usize = 4;
    let fluids = fluids(n, order, true);
    let k = fluids.len();
    let flat: Vec<_> = fluids.iter().map(|f| vrq::flat(&vrq::parameters(&f.quantum_lists()).ok().unwrap())).collect();
    let (m, volumes) = ([1.0; SIDE], [1e9; LAYERS]);
    let temperatures = |i: usize| std::array::from_fn::<f64, LAYERS, _>(|l| fluids[i].temperature + l as f64);
    let single = |f: port::Energies, places: usize, i: usize| {
        let (mut sums, (sheets, orders), fluid) = ([0.0; 6], &flat[i], &fluids[i]);
        for t in temperatures(i) {
            let (mut out, mut values, mut counts) = ([0.0; 6], [0.0; TABLE], [0u8; COUNTS]);
            let numbers = unsafe {
                [
                    table(
                        n, m.as_ptr(), SIDE, sheets.as_ptr(), SHEETS, orders.as_ptr(), SHEET, t, values.as_mut_ptr(), TABLE,
                        counts.as_mut_ptr(), COUNTS,
                    ),
                    f(
                        n, m.as_ptr(), SIDE, sheets.as_ptr(), SHEETS, orders.as_ptr(), SHEET, t, fluid.x.as_ptr(), n,
                        fluid.rho.as_ptr(), n, values.as_ptr(), TABLE, true, out.as_mut_ptr(), places,
                    ),
                ]
            };
            assert!(numbers == [0, 0]);
            sums.iter_mut().zip(out).for_each(|(sum, e)| *sum += e * volumes[0] * t);
        }
        sums
    };
    let layered = |f: port::Tank, places: usize, i: usize| {
        let (mut out, (sheets, orders), fluid, t) = ([0.0; 6], &flat[i], &fluids[i], temperatures(i));
        let (x, rho) = (fluid.x.repeat(LAYERS), fluid.rho.repeat(LAYERS));
        let number = unsafe {
            f(
                n, m.as_ptr(), SIDE, sheets.as_ptr(), SHEETS, orders.as_ptr(), SHEET, LAYERS, t.as_ptr(), LAYERS, x.as_ptr(), x.len(),
                rho.as_ptr(), rho.len(), volumes.as_ptr(), LAYERS, true, out.as_mut_ptr(), places,
            )
        };
        assert!(number == 0);
        out
    };
    rows.row("tank of 4 layers", n, Some(order), k, |i| single(energies, 3, i), |i| layered(tank, 3, i));
    rows.row("tank of 4 layers, ends", n, Some(order), k, |i| single(ends, 6, i), |i| layered(tank_ends, 6, i));
}

fn vr_mie_ends(rows: &mut Rows, n: usize) {
    let fluids = fluids(n, 0, false);
    let k = fluids.len();
    let sets: Vec<_> = fluids.iter().map(|f| vr::parameters(&f.mie_lists())).collect();
    let flat: Vec<_> = sets.iter().map(vr::flat).collect();
    let lists: Vec<Vec<f64>> = fluids
        .iter()
        .map(|f| [&f.m, &f.sigma, &f.epsilon_k, &f.lr, &f.la].iter().flat_map(|l| (0..SIDE).map(|i| *l.get(i).unwrap_or(&0.0))).collect())
        .collect();
    let diameters: Vec<_> = (0..k).map(|i| vr::diameters(&sets[i], fluids[i].temperature)).collect();
    if let (Some(float), Some(ends)) = (port::VR_DISPERSION, port::VR_DISPERSION_ENDS) {
        for (chain, name) in [(false, "VR Mie disp., two ends"), (true, "VR Mie chain, two ends")] {
            let floats = |i: usize| {
                let (mut out, f) = (0.0, &fluids[i]);
                let number = unsafe {
                    float(
                        n, lists[i].as_ptr(), LISTS, flat[i].as_ptr(), SHEETS, f.temperature, f.x.as_ptr(), n, f.rho.as_ptr(), n,
                        diameters[i].as_ptr(), n, chain, &mut out,
                    )
                };
                assert!(number == 0);
                out
            };
            let two = |i: usize| {
                let (mut out, f) = ([0.0; 2], &fluids[i]);
                let number = unsafe {
                    ends(
                        n, lists[i].as_ptr(), LISTS, flat[i].as_ptr(), SHEETS, f.temperature, f.x.as_ptr(), n, f.rho.as_ptr(), n,
                        diameters[i].as_ptr(), n, chain, out.as_mut_ptr(), 2,
                    )
                };
                assert!(number == 0);
                out
            };
            rows.row(name, n, None, k, floats, two);
        }
    }
    if n > 1 {
        return;
    }
    if let (Some(radius), Some(diameter), Some(ends)) = (port::VR_RADIUS, port::VR_DIAMETER, port::VR_DIAMETER_ENDS) {
        let searched = |i: usize| {
            let mut out = 0.0;
            let number = unsafe { radius(1, lists[i].as_ptr(), LISTS, flat[i].as_ptr(), SHEETS, 0, 0, fluids[i].temperature, &mut out) };
            assert!(number == 0);
            out
        };
        let found: Vec<f64> = (0..k).map(searched).collect();
        let two = |i: usize| {
            let mut out = [0.0; 2];
            let t = fluids[i].temperature;
            let number = unsafe { ends(1, lists[i].as_ptr(), LISTS, flat[i].as_ptr(), SHEETS, 0, 0, t, found[i], out.as_mut_ptr(), 2) };
            assert!(number == 0);
            out
        };
        let float = |i: usize| {
            let (mut out, t) = (0.0, fluids[i].temperature);
            let number = unsafe { diameter(1, lists[i].as_ptr(), LISTS, flat[i].as_ptr(), SHEETS, 0, 0, t, found[i], &mut out) };
            assert!(number == 0);
            out
        };
        rows.row("VR Mie diameter, two ends", n, None, k, float, two);
    }
}

/// The calls of a desk, over queries that lie ready.
struct Desk<'a> {
    floats: Vec<f64>,
    bytes: Vec<u8>,
    queries: &'a [(usize, Fluid, ([f64; SHEETS], [u8; SHEET]))],
}

impl Desk<'_> {
    fn submit(&mut self, i: usize) {
        let (n, fluid, (sheets, orders)) = &self.queries[i];
        let mut place = 0;
        let number = unsafe {
            port::DESK_SUBMIT.unwrap()(
                self.floats.as_mut_ptr(), DESK_FLOATS, self.bytes.as_mut_ptr(), DESK_BYTES, *n, [1.0; SIDE].as_ptr(), SIDE, sheets.as_ptr(),
                SHEETS, orders.as_ptr(), SHEET, fluid.temperature, fluid.x.as_ptr(), *n, fluid.rho.as_ptr(), *n, true, &mut place,
            )
        };
        assert!(number == 0);
    }

    /// The outcome, and nanoseconds.
    fn serve(&mut self) -> (u8, f64) {
        let (mut outcome, mut place, mut number, mut out) = (0, 0, 0, [0.0; 3]);
        let start = Instant::now();
        let refused = unsafe {
            port::DESK_SERVE.unwrap()(
                self.floats.as_mut_ptr(), DESK_FLOATS, self.bytes.as_mut_ptr(), DESK_BYTES, &mut outcome, &mut place, &mut number,
                out.as_mut_ptr(), 3,
            )
        };
        let time = start.elapsed().as_nanos() as f64;
        assert!(refused == 0 && (outcome < 2 || number == 0));
        (outcome, time)
    }

    /// The units of query i, in place 0 of a new desk, with 15 times query j behind it where one is given: the least nanoseconds of each.
    fn query(&mut self, i: usize, others: Option<usize>, best: &mut [f64]) {
        assert!(unsafe { port::DESK_BEGIN.unwrap()(self.floats.as_mut_ptr(), DESK_FLOATS, self.bytes.as_mut_ptr(), DESK_BYTES) } == 0);
        self.submit(i);
        others.iter().for_each(|&j| (1..DESK_PLACES).for_each(|_| self.submit(j)));
        for unit in best {
            let (outcome, time) = self.serve();
            *unit = unit.min(time);
            if outcome == 2 {
                return;
            }
            others.iter().for_each(|_| (1..DESK_PLACES).for_each(|_| { self.serve(); }));
        }
    }
}

/// A query at a desk, unit by unit, beside the direct calls for table and energies; alone, and with 15 others of twelve components.
fn desks(rows: &mut Rows, n: usize, order: u8) {
    let (Some(table), Some(energies), Some(_)) = (port::VRQ_TABLE, port::VRQ_ENERGIES, port::DESK_SERVE) else { return };
    let made = |n: usize| fluids(n, order, true).into_iter().map(move |f| (n, vrq::flat(&vrq::parameters(&f.quantum_lists()).ok().unwrap()), f));
    let queries: Vec<_> = made(n).chain(made(SIDE).take(1)).map(|(n, flat, f)| (n, f, flat)).collect();
    let last = queries.len() - 1;
    let mut desk = Desk { floats: vec![0.0; DESK_FLOATS], bytes: vec![0; DESK_BYTES], queries: &queries };
    let directly = |i: usize| {
        let (n, fluid, (sheets, orders)) = &queries[i];
        let (mut out, mut values, mut counts) = ([0.0; 3], [0.0; TABLE], [0u8; COUNTS]);
        let start = Instant::now();
        let numbers = unsafe {
            [
                table(
                    *n, [1.0; SIDE].as_ptr(), SIDE, sheets.as_ptr(), SHEETS, orders.as_ptr(), SHEET, fluid.temperature, values.as_mut_ptr(),
                    TABLE, counts.as_mut_ptr(), COUNTS,
                ),
                energies(
                    *n, [1.0; SIDE].as_ptr(), SIDE, sheets.as_ptr(), SHEETS, orders.as_ptr(), SHEET, fluid.temperature, fluid.x.as_ptr(), *n,
                    fluid.rho.as_ptr(), *n, values.as_ptr(), TABLE, true, out.as_mut_ptr(), 3,
                ),
            ]
        };
        assert!(numbers == [0, 0]);
        start.elapsed().as_nanos() as f64
    };
    let mut least = [0.0; 3];
    for i in 0..last {
        let (mut direct, mut alone, mut among) = (f64::INFINITY, vec![f64::INFINITY; n * n], vec![f64::INFINITY; n * n]);
        for _ in 0..if n > 4 { 20 } else { 200 } {
            direct = direct.min(directly(i));
            desk.query(i, None, &mut alone);
        }
        for _ in 0..if n > 4 { 5 } else { 20 } {
            desk.query(i, Some(last), &mut among);
            direct = direct.min(directly(i));
        }
        for (k, time) in [direct, alone.iter().sum(), among.iter().sum()].into_iter().enumerate() {
            least[k] += time / last as f64;
        }
    }
    rows.add("query, alone at the desk", n, Some(order), least[0], least[1]);
    rows.add("query, 15 of 12 wait too", n, Some(order), least[0], least[2]);
}

fn print(title: &str, columns: [&str; 2], rows: &Rows) {
    println!("{title}");
    println!("{:<26} {:>2} {:>5} {:>10} {:>10} {:>7} {:>6}", "operation", "n", "order", columns[0], columns[1], "ratio", "goal");
    rows.0.iter().flat_map(|r| &r.1).for_each(|line| println!("{line}"));
}

/// Components of the rows.
const SIZES: [usize; 5] = [1, 2, 4, 8, SIDE];

pub fn run() {
    let mut rows = Rows::default();
    for n in SIZES {
        for order in 0..3 {
            quantum(&mut rows, n, order);
        }
    }
    for n in SIZES {
        vr_mie(&mut rows, n);
    }
    let title = "operations: the Rust as it is on the platform's functions, and the port; order is Feynman-Hibbs'";
    print(title, ["Rust us", "port us"], &rows);
    let mut rows = Rows::default();
    for n in SIZES {
        for order in 0..3 {
            quantum_ends(&mut rows, n, order);
        }
    }
    for n in SIZES {
        vr_mie_ends(&mut rows, n);
    }
    for n in [1, 2, 4, 8] {
        quantum_card(&mut rows, n, false);
    }
    for n in SIZES {
        quantum_card(&mut rows, n, true);
    }
    print("two ends, the total and the card: the port's floats, and these", ["float us", "port us"], &rows);
    num_dual::REAL_POWER_SLOPES.store(true, std::sync::atomic::Ordering::Relaxed);
    let mut rows = Rows::default();
    for n in [1, 2, 4, 8] {
        for order in 0..3 {
            pressure(&mut rows, n, order);
        }
    }
    print("slopes: a table and energies in floats, or the Rust on dual numbers, and the port's call with slopes", ["without us", "port us"], &rows);
    let mut rows = Rows::default();
    for n in SIZES {
        for order in 0..3 {
            tanks(&mut rows, n, order);
        }
    }
    print("tanks: four tables and single calls, and a tank", ["single us", "tank us"], &rows);
    let mut rows = Rows::default();
    for n in SIZES {
        for order in 0..3 {
            desks(&mut rows, n, order);
        }
    }
    print("desk: direct calls for table and energies, and the units of a query", ["direct us", "desk us"], &rows);
}
