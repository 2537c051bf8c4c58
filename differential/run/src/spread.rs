//! How far the platform's functions, and the slopes as num_dual has them, lead away from the port's: relative, value by value,
//! at packing fractions from 0.01 to 0.5 and where both sides have a finite value.
use crate::oracle::{self, PORT, lists_for};
use crate::random::Random;
use crate::sizes::{SHEET, SIDE, mie_set};
use crate::states::{self, Kind};
use plain::saftvrmie::eos as vr;
use plain::saftvrqmie::eos::driver as vrq;
use std::collections::BTreeMap;
use std::sync::atomic::Ordering::Relaxed;

#[derive(Default)]
struct Spreads(BTreeMap<&'static str, Vec<f64>>);

impl Spreads {
    fn add(&mut self, row: &'static str, port: &[f64], platform: &[f64]) {
        let list = self.0.entry(row).or_default();
        for (a, b) in port.iter().zip(platform) {
            if b.is_finite() {
                list.push(if a == b { 0.0 } else { ((a - b) / a).abs() });
            }
        }
    }
    fn print(&mut self, title: &str) {
        println!("{title}\n{:<34} {:>9} {:>10} {:>10} {:>10}", "values", "number", "median", "99 of 100", "worst");
        for (row, list) in &mut self.0 {
            if list.is_empty() {
                continue;
            }
            list.sort_by(f64::total_cmp);
            let at = |part: f64| list[((list.len() - 1) as f64 * part) as usize];
            println!("{row:<34} {:>9} {:>10.1e} {:>10.1e} {:>10.1e}", list.len(), at(0.5), at(0.99), at(1.0));
        }
    }
}

fn used(n: usize, sheet: &[f64]) -> Vec<f64> {
    (0..SHEET).filter(|e| e / SIDE < n && e % SIDE < n).map(|e| sheet[e]).collect()
}

fn quantum(g: &mut Random, kind: Kind, rows: &mut Spreads) -> Option<()> {
    let l = states::lists_of(g, true, kind);
    let n = l.count;
    let set = oracle::vrq_parameters(&l, oracle::QUANTUM_SET).ok()?;
    let own = vrq::parameters(&lists_for!(vrq, l)).ok()?;
    let sheets = vrq::flat(&own).0;
    for (s, name) in
        ["quantum sigma_ij", "quantum epsilon_k_ij", "quantum c_ij", "quantum lambda_r_ij", "quantum lambda_a_ij", "quantum mass_ij"]
            .into_iter()
            .enumerate()
    {
        rows.add(name, &used(n, &set.sheets[SHEET * s..]), &used(n, &sheets[SHEET * s..]));
    }
    let t = states::temperature(g, true);
    let (table, counts) = oracle::vrq_table(&set, t, oracle::TABLE_AND_COUNTS).ok()?;
    let p = vrq::set(n, &set.m, &set.sheets, &set.orders);
    let platform = vrq::table(&p, t);
    let found = |k: usize| counts[SHEET * k..][..SHEET].iter().all(|c| *c < 20);
    let names = if found(0) && found(1) && found(2) {
        ["table, all found: sigma_eff", "table, all found: hs_diameter", "table, all found: epsilon_k_eff", "table: quantum_d"]
    } else {
        ["table, one spent: sigma_eff", "table, one spent: hs_diameter", "table, one spent: epsilon_k_eff", "table: quantum_d"]
    };
    for (s, name) in names.into_iter().enumerate() {
        rows.add(name, &used(n, &table[SHEET * s..]), &used(n, &platform[SHEET * s..]));
    }
    let diameters = states::diameters(n, &table);
    let mut s = states::quiet_state(g, n, &[1.0; SIDE], &diameters);
    s.temperature = t;
    let port = oracle::vrq_energies(&set, &s, &table, false, 3).ok()?;
    let platform = vrq::energies(&p, &table, t, &s.fractions, &s.densities, false);
    rows.add("quantum hard sphere", &port[..1], &platform[..1]);
    rows.add("quantum dispersion", &port[1..2], &platform[1..2]);
    // from lists to energies, each side with its own parameters and table
    let port = oracle::vrq_stage(&l, &s, true, 3).ok()?;
    let platform = vrq::energies(&own, &vrq::table(&own, t), t, &s.fractions, &s.densities, true);
    for (k, name) in ["quantum stage: hard sphere", "quantum stage: dispersion", "quantum stage: non-additive"].into_iter().enumerate() {
        rows.add(name, &port[k..k + 1], &platform[k..k + 1]);
    }
    Some(())
}

fn vr_mie(g: &mut Random, kind: Kind, rows: &mut Spreads) -> Option<()> {
    let l = states::lists_of(g, false, kind);
    let n = l.count;
    let set = oracle::vr_parameters(&l, oracle::MIE_SET).ok()?;
    let own = vr::parameters(&vr::Lists {
        m: &l.m,
        sigma: &l.sigma,
        epsilon_k: &l.epsilon_k,
        lr: &l.lr,
        la: &l.la,
        k_ij: &l.k_ij,
        gamma_ij: &l.l_ij,
    });
    rows.add("VR Mie c_ij", &used(n, &set.sheets[mie_set::C_IJ..]), &used(n, &vr::flat(&own)[mie_set::C_IJ..]));
    rows.add("VR Mie alpha_ij", &used(n, &set.sheets[mie_set::ALPHA_IJ..]), &used(n, &vr::flat(&own)[mie_set::ALPHA_IJ..]));
    let t = states::temperature(g, false);
    let diameters = oracle::vr_diameters(&set, t, n).ok()?;
    let p = vr::set(n, &set.lists, &set.sheets);
    rows.add("VR Mie diameters", &diameters, &vr::diameters(&p, t));
    let mut s = states::quiet_state(g, n, &l.m, &diameters);
    s.temperature = t;
    let own_diameters = vr::diameters(&own, t);
    for (chain, name, stage) in [(false, "VR Mie dispersion", "VR Mie stage"), (true, "VR Mie dispersion and chain", "VR Mie stage, chain")]
    {
        let Ok(port) = oracle::vr_dispersion(&set, &s, &diameters, chain) else { continue };
        rows.add(name, &[port], &[vr::dispersion(&p, &diameters, t, &s.fractions, &s.densities, chain)]);
        rows.add(stage, &[port], &[vr::dispersion(&own, &own_diameters, t, &s.fractions, &s.densities, chain)]);
    }
    if let Ok(port) = oracle::vr_dispersion(&set, &s, &diameters, true) {
        num_dual::CRATE_RULES.store(true, Relaxed);
        rows.add("VR Mie chain, num_dual's slopes", &[port], &[vr::dispersion(&p, &diameters, t, &s.fractions, &s.densities, true)]);
        num_dual::CRATE_RULES.store(false, Relaxed);
    }
    Some(())
}

pub fn run(count: u64, seed: u64) {
    num_dual::use_functions(&PORT);
    for (kind, title) in [(Kind::Usual, "spread, usual fluids"), (Kind::Wide, "spread, fluids anywhere within the limits")] {
        let mut g = Random(seed ^ 0x59ead);
        let mut rows = Spreads::default();
        for _ in 0..count {
            quantum(&mut g, kind, &mut rows);
            vr_mie(&mut g, kind, &mut rows);
        }
        rows.print(title);
    }
}
