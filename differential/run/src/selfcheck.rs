//! The oracle tried on itself: the renamed text with the platform's functions gives the bits of the unchanged text,
//! and both give the values worked out for a few fluids; the text on dual numbers has the values of the text on floats;
//! and the bits of a NaN are seen.
use crate::lent::Lent;
use crate::oracle::{self, PORT, QuantumSet, Slopes, State, lists_for, same};
use crate::random::Random;
use crate::sizes::TABLE;
use crate::states::{self, Kind};
use crate::tally::Tally;

/// Everything that a text computes from lists and a state.
macro_rules! all_values {
    ($text:ident, $l:expr, $v:expr, $s:expr, $table:expr) => {{
        use $text::saftvrmie::eos as vr;
        use $text::saftvrmie::parameters::r0;
        use $text::saftvrqmie::eos::driver as vrq;
        let (l, v, s, mut all) = ($l, $v, $s, vec![]);
        let quantum = vrq::parameters(&lists_for!(vrq, l));
        match quantum {
            Err(number) => all.push(number as f64),
            Ok(p) => {
                all.extend(vrq::flat(&p).0);
                let table = vrq::table(&p, s.temperature);
                all.extend(table);
                all.extend(vrq::energies(&p, &table, s.temperature, &s.fractions, &s.densities, true));
                let by_hand: Vec<f64> = table.iter().zip($table).map(|(x, y)| x * y).collect();
                all.extend(vrq::energies(&p, &by_hand, s.temperature, &s.fractions, &s.densities, true));
            }
        }
        let p = vr::parameters(&vr::Lists {
            m: &v.m,
            sigma: &v.sigma,
            epsilon_k: &v.epsilon_k,
            lr: &v.lr,
            la: &v.la,
            k_ij: &v.k_ij,
            gamma_ij: &v.l_ij,
        });
        all.extend(vr::flat(&p));
        all.push(r0(&p, 0, v.count - 1, s.temperature));
        let d = vr::diameters(&p, s.temperature);
        all.extend(&d);
        for chain in [false, true] {
            all.push(vr::dispersion(&p, &d, s.temperature, &s.fractions, &s.densities, chain));
        }
        all
    }};
}

/// The unchanged text beside the renamed one, on states inside the limits.
pub fn texts(count: u64, seed: u64, tally: &mut Tally) {
    num_dual::use_functions(&num_dual::PLATFORM);
    let mut g = Random(seed ^ 0x7e87);
    for case in 0..count {
        let l = states::lists(&mut g, true);
        let v = loop {
            let v = states::lists(&mut g, false);
            if v.count == l.count {
                break v;
            }
        };
        let mut s = states::state(&mut g, l.count, &v.m, &l.sigma, true);
        s.fractions.resize(l.count, 0.1);
        s.densities.resize(l.count, 0.001);
        let scales: Vec<f64> = (0..TABLE).map(|_| g.within(0.98, 1.02)).collect();
        let unchanged = all_values!(plain, &l, &v, &s, &scales);
        let renamed = all_values!(renamed, &l, &v, &s, &scales);
        let other = unchanged.iter().zip(&renamed).filter(|(a, b)| !same(**a, **b)).count();
        tally.note("oracle: two texts", 0, other == 0 && unchanged.len() == renamed.len(), || {
            format!("case {case}: {other} of {} values", unchanged.len())
        });
    }
}

fn close(tally: &mut Tally, what: &str, got: &[f64], wanted: &[f64]) {
    let right = got.len() == wanted.len() && got.iter().zip(wanted).all(|(a, b)| (a - b).abs() <= 1e-11 * b.abs());
    tally.note("oracle: known values", 0, right, || format!("{what}: {got:?}, expected {wanted:?}"));
}

/// Values of hydrogen-like and neon-like fluids and of ethane and methane, to eleven digits.
pub fn known_values(tally: &mut Tally) {
    use plain::saftvrmie::eos as vr;
    use plain::saftvrqmie::eos::driver as vrq;
    let quantum = |n: usize, x: &[f64], rho: &[f64]| {
        let p = vrq::parameters(&vrq::Lists {
            m: &[1.0, 1.0][..n],
            sigma: &[3.0243, 2.7778][..n],
            epsilon_k: &[26.706, 37.501][..n],
            lr: &[9.0, 13.0][..n],
            la: &[6.0, 6.0][..n],
            mass: &[3.3474472e-27, 3.35092e-26][..n],
            order: &[1, 1][..n],
            k_ij: &[0.0; 4][..n * n],
            l_ij: &[0.0; 4][..n * n],
        })
        .unwrap();
        vrq::energies(&p, &vrq::table(&p, 30.0), 30.0, x, rho, true)
    };
    close(tally, "hydrogen", &quantum(1, &[1.0], &[0.01]), &[0.00787455788859, -0.0185045783891, 0.0]);
    close(tally, "hydrogen and neon", &quantum(2, &[0.5, 0.5], &[0.01, 0.01]), &[0.0317091953986, -0.0707546404806, 0.000543401006029]);
    let p = vr::parameters(&vr::Lists {
        m: &[1.4373, 1.0],
        sigma: &[3.7257, 3.7412],
        epsilon_k: &[206.12, 153.36],
        lr: &[12.4, 12.65],
        la: &[6.0, 6.0],
        k_ij: &[0.0; 4],
        gamma_ij: &[0.0; 4],
    });
    let d = vr::diameters(&p, 200.0);
    close(tally, "diameters of ethane and methane", &d, &[3.62927155125, 3.62348866077]);
    let energies = [false, true].map(|chain| vr::dispersion(&p, &d, 200.0, &[0.4, 0.6], &[0.003, 0.004], chain));
    close(tally, "ethane and methane", &energies, &[-0.0206772971504, -0.0207175328474]);
}

/// A NaN of another pattern, a signalling one made quiet among them, is seen in a lent list.
pub fn payloads(tally: &mut Tally) {
    let (mut g, mut lent) = (Random(5), Lent::default());
    for case in 0..100 {
        let before = [g.nan(), g.nan(), g.nan()];
        let quiet = before[1] | 1 << 51;
        let other = if quiet != before[1] { quiet } else { before[1] ^ 1 << g.below(51) };
        lent.clear();
        let at = lent.lend(&before, case % 2 == 0);
        let kept = lent.kept(0);
        unsafe { at.add(1).write(other) };
        tally.note("oracle: NaN payloads", 0, kept && !lent.kept(0), || format!("{:016x} taken for {other:016x}", before[1]));
    }
}

/// The text on dual numbers: values are the bits of the text on floats, and slopes are close to difference quotients.
pub fn slopes(count: u64, seed: u64, tally: &mut Tally) {
    num_dual::use_functions(&PORT);
    let mut g = Random(seed ^ 0x510e);
    for case in 0..count {
        let l = states::lists(&mut g, true);
        let Ok(set) = oracle::vrq_parameters(&l, oracle::QUANTUM_SET) else { continue };
        let state = states::state(&mut g, l.count, &l.m, &l.sigma, true);
        let mut list = |values: &[f64]| values.iter().map(|_| g.within(-1.0, 1.0)).collect();
        let slopes = Slopes { fractions: list(&state.fractions), densities: list(&state.densities), temperature: g.within(-1.0, 1.0) };
        let with_slopes = oracle::vrq_energies_slopes(&set, &state, &slopes, true, 6);
        let floats = floats_alone(&set, &state);
        let right = match (&with_slopes, &floats) {
            (Ok(six), Ok(three)) => (0..3).all(|k| same(six[2 * k], three[k])),
            (Err(6 | 7), Ok(_)) => true,
            (Err(a), Err(b)) => a == b,
            _ => false,
        };
        let answer = with_slopes.as_ref().err().copied().unwrap_or(0);
        tally.note("oracle: dual numbers", answer, right, || format!("case {case}: {with_slopes:?} beside {floats:?}"));
    }
    for case in 0..count / 4 {
        let l = states::lists_of(&mut g, true, Kind::Usual);
        let Ok(set) = oracle::vrq_parameters(&l, oracle::QUANTUM_SET) else { continue };
        let mut state = states::quiet_state(&mut g, l.count, &l.m, &l.sigma);
        state.temperature = g.within(60.0, 300.0);
        let moved = |h: f64| State {
            temperature: state.temperature * (1.0 + h),
            fractions: state.fractions.clone(),
            densities: state.densities.iter().map(|x| x * (1.0 - h)).collect(),
        };
        let slopes = Slopes {
            temperature: state.temperature,
            fractions: vec![0.0; l.count],
            densities: state.densities.iter().map(|x| -x).collect(),
        };
        let h = 1e-5;
        let (Ok(six), Ok(up), Ok(down)) =
            (oracle::vrq_energies_slopes(&set, &state, &slopes, true, 6), floats_alone(&set, &moved(h)), floats_alone(&set, &moved(-h)))
        else {
            continue;
        };
        let quotient = |k: usize| (up[k] - down[k]) / (2.0 * h);
        let right = (0..3).all(|k| (six[2 * k + 1] - quotient(k)).abs() <= 1e-4 * quotient(k).abs() + 1e-6 * up[k].abs());
        tally.note("oracle: difference quotients", 0, right, || {
            format!("case {case}: {six:?} beside {:?}", [quotient(0), quotient(1), quotient(2)])
        });
    }
}

/// The energies from a table of their own, in floats.
fn floats_alone(set: &QuantumSet, state: &State) -> Result<[f64; 3], u8> {
    if state.fractions.len() != set.count || state.densities.len() != set.count {
        return Err(1);
    }
    oracle::vrq_energies(set, state, &[0.0; TABLE], true, 3).map(|_| ()).or_else(|n| if n == 2 { Err(2) } else { Ok(()) })?;
    let (table, _) = oracle::vrq_table(set, state.temperature, oracle::TABLE_AND_COUNTS)?;
    oracle::vrq_energies(set, state, &table, true, 3)
}
