//! Vectors of the two-ended operations and of a pair's radii, for tools/evaluate: chains as in vectors.rs, with the oracle's answers. docs/VECTORS.md has the layout.
use crate::oracle::{self, State};
use crate::random::Random;
use crate::sizes::{SIDE, TABLE};
use crate::states::{self, Kind};
use crate::vectors::{File, Mie, Quantum, Record, all_bits, at_both_sides, bits, length, save, short, wide};

const NAMES: [&str; 7] = [
    "quantum energies' ends",
    "quantum diameter's ends",
    "quantum radii",
    "VR Mie dispersion's ends",
    "VR Mie dispersion's ends with chain",
    "VR Mie diameter's ends",
    "VR Mie radius",
];
/// The numbers that each operation is to give, 0 for accepted, this often at least; 7 of a quantum diameter cannot be met.
const NUMBERS: [&[u8]; 7] =
    [&[0, 1, 2, 6, 7, 8], &[0, 1, 2, 6, 8], &[0, 1, 2, 6], &[0, 1, 2, 6, 7, 8], &[0, 1, 2, 6, 7, 8], &[0, 1, 2, 6, 7, 8], &[0, 1, 2, 6]];
const OFTEN: u64 = 5;

fn answered(mut r: Record, answer: Result<Vec<u64>, u8>) -> Record {
    match answer {
        Ok(words) => r.answers = words,
        Err(number) => r.number = number as u64,
    }
    r
}

fn of_state(what: u64, s: &State, flag: bool, lent: u64) -> Record {
    Record {
        what,
        value: bits(s.temperature),
        flag: flag as u64,
        lengths: vec![s.fractions.len() as u64, s.densities.len() as u64, lent],
        list: all_bits(&s.fractions).into_iter().chain(all_bits(&s.densities)).collect(),
        ..Default::default()
    }
}

fn of_pair(what: u64, (i, j): (usize, usize), t: f64, list: &[f64]) -> Record {
    Record { what, value: bits(t), lengths: vec![i as u64, j as u64], list: all_bits(list), ..Default::default() }
}

/// Mostly a pair of the set.
fn pair(g: &mut Random, n: usize, odd: bool) -> (usize, usize) {
    if odd && g.once_in(12) { (g.below(SIDE + 2), g.below(SIDE + 2)) } else { (g.below(n), g.below(n)) }
}

fn quantum(g: &mut Random, n: usize, order: u8, odd: bool) -> File {
    let kind = if odd { g.one_of(&[Kind::Usual, Kind::Wide, Kind::Ends]) } else { Kind::Usual };
    let mut lists = states::lists_with(g, true, kind, n);
    lists.order = vec![order; n];
    let mut q = Quantum::new();
    if !q.parameters(&lists) {
        return q.file;
    }
    let t = if odd { states::temperature(g, true) } else { g.within(15.0, 300.0) };
    if odd && g.once_in(2) {
        let mut set = q.set.clone();
        states::quantum_set_by_hand(g, &mut set);
        if set.lengths() == oracle::QUANTUM_SET && set.orders.iter().all(|o| *o <= 2) && at_both_sides(q.set.count, set.count) {
            q.by_hand(set, q.table.clone());
        }
    }
    let n = q.set.count.clamp(1, SIDE);
    let at = pair(g, n, odd);
    let searched = oracle::vrq_radii(&q.set, at.0, at.1, t, [6, 3]);
    let radii = searched.as_ref().map_or([3.0, 2.5], |r| [r.0[0], r.0[2]]);
    let words = searched.map(|(radii, counts)| all_bits(&radii).into_iter().chain(wide(&counts)).collect());
    q.file.call(NAMES[2], answered(of_pair(14, at, t, &[]), words));
    let mut radii = radii;
    if odd {
        states::by_hand(g, &mut radii);
    }
    let ends = oracle::vrq_diameter_ends(&q.set, at.0, at.1, t, radii, 2);
    q.file.call(NAMES[1], answered(of_pair(8, at, t, &radii), ends.map(|e| all_bits(&e))));
    q.table(t, oracle::TABLE_AND_COUNTS);
    for turn in 0..2 {
        if odd && g.once_in(2) {
            let mut table = q.table.clone();
            states::by_hand(g, &mut table);
            q.by_hand(q.set.clone(), table);
        }
        let diameters = states::diameters(n, &q.table);
        let mut state =
            if odd { states::state(g, n, &[1.0; SIDE], &diameters, true) } else { states::quiet_state(g, n, &[1.0; SIDE], &diameters) };
        if !odd || g.once_in(2) {
            state.temperature = t;
        }
        let lent = length(g, odd, TABLE);
        let ends = oracle::vrq_energies_ends(&q.set, &state, &q.table[..lent], turn == 0, 6);
        q.file.call(NAMES[0], answered(of_state(7, &state, turn == 0, short(lent, TABLE)), ends.map(|e| all_bits(&e))));
    }
    q.file
}

fn mie(g: &mut Random, n: usize, odd: bool) -> File {
    let kind = if odd { g.one_of(&[Kind::Usual, Kind::Wide, Kind::Ends]) } else { Kind::Usual };
    let lists = states::lists_with(g, false, kind, n);
    let mut v = Mie::new();
    if !v.parameters(&lists) {
        return v.file;
    }
    let t = if odd { states::temperature(g, false) } else { g.within(150.0, 600.0) };
    if odd && g.once_in(2) {
        let mut set = v.set.clone();
        states::mie_set_by_hand(g, &mut set);
        if set.lengths() == oracle::MIE_SET && at_both_sides(v.set.count, set.count) {
            v.by_hand(set, v.diameters.clone());
        }
    }
    let n = v.set.count.clamp(1, SIDE);
    let at = pair(g, n, odd);
    let radius = oracle::vr_radius(&v.set, at.0, at.1, t);
    v.file.call(NAMES[6], answered(of_pair(15, at, t, &[]), radius.map(|r| vec![bits(r)])));
    let r0 = if odd && g.once_in(4) { g.odd() } else { radius.unwrap_or(0.8) };
    let ends = oracle::vr_diameter_ends(&v.set, at.0, at.1, t, r0, 2);
    v.file.call(NAMES[5], answered(of_pair(13, at, t, &[r0]), ends.map(|e| all_bits(&e))));
    v.diameters(t, n);
    if odd && g.once_in(2) {
        let mut d = v.diameters.clone();
        states::by_hand(g, &mut d);
        v.by_hand(v.set.clone(), d);
    }
    let m = v.set.lists[..SIDE].to_vec();
    let mut state = if odd { states::state(g, n, &m, &v.diameters, false) } else { states::quiet_state(g, n, &m, &v.diameters) };
    if !odd || g.once_in(2) {
        state.temperature = t;
    }
    let lent = length(g, odd, n);
    for chain in [false, true] {
        let ends = oracle::vr_dispersion_ends(&v.set, &state, &v.diameters[..lent], chain, 2);
        v.file.call(NAMES[3 + chain as usize], answered(of_state(9, &state, chain, lent as u64), ends.map(|e| all_bits(&e))));
    }
    v.file
}

/// Usual chains of one to three components, and odd ones until each number is met often enough.
fn file(names: std::ops::Range<usize>, seed: u64, chain: &dyn Fn(&mut Random, usize, usize, bool) -> File) -> File {
    let mut g = Random(seed);
    let mut file = File::default();
    for n in 1..=3 {
        (0..9 / n).for_each(|turn| file.join(chain(&mut g, n, turn, false)));
    }
    for tries in 0.. {
        let lacking: Vec<_> = names
            .clone()
            .flat_map(|k| NUMBERS[k].iter().map(move |number| (NAMES[k], *number)))
            .filter(|x| file.lacks(x.0, x.1, OFTEN))
            .collect();
        if lacking.is_empty() {
            break;
        }
        assert!(tries < 2_000_000, "not met: {lacking:?}");
        let n = g.one_of(&[1, 1, 2]);
        let one = chain(&mut g, n, tries, true);
        if lacking.iter().any(|x| one.met.contains_key(x)) {
            file.join(one);
        }
    }
    file
}

/// Writes both files into a folder.
pub fn write(folder: &str) {
    num_dual::use_functions(&oracle::PORT);
    num_dual_ended::use_functions(&oracle::ENDED);
    save(folder, "quantum_ends.bin", &file(0..3, 1, &|g, n, turn, odd| quantum(g, n, turn as u8 % 3, odd)));
    save(folder, "mie_ends.bin", &file(3..7, 0x54, &|g, n, _, odd| mie(g, n, odd)));
}
