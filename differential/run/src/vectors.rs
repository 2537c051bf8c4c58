//! Vectors: chains of calls with what the oracle answers, for the program `vectors_main` and for tools/evaluate. docs/VECTORS.md has the layout.
use crate::oracle::{self, Lists, MieSet, QuantumSet, State};
use crate::random::Random;
use crate::sizes::{COUNTS, LISTS, SHEET, SHEETS, SIDE, TABLE};
use crate::states::{self, Kind};
use std::collections::BTreeMap;

const QUANTUM: [&str; 3] = ["quantum parameters", "quantum table", "quantum energies"];
const MIE: [&str; 4] = ["VR Mie parameters", "VR Mie diameters", "VR Mie dispersion", "VR Mie dispersion and chain"];
/// The numbers that each operation can give, 0 for accepted; each is to be met this often at least.
const NUMBERS: [(&str, &[u8]); 7] = [
    (QUANTUM[0], &[0, 1, 2, 3, 4, 5, 6]),
    (QUANTUM[1], &[0, 1, 2, 6, 7]),
    (QUANTUM[2], &[0, 1, 2, 6, 7]),
    (MIE[0], &[0, 1, 2, 6]),
    (MIE[1], &[0, 1, 2, 6, 7]),
    (MIE[2], &[0, 1, 2, 6, 7]),
    (MIE[3], &[0, 1, 2, 6, 7]),
];
const OFTEN: u64 = 3;
/// The files of 1 to 8 components were written when a side was 8, and are kept.
const FEWEST: usize = 9;

/// One record: 24 words, then its list.
#[derive(Default)]
pub struct Record {
    pub what: u64,
    pub number: u64,
    pub count: u64,
    pub value: u64,
    pub flag: u64,
    pub lengths: Vec<u64>,
    pub answers: Vec<u64>,
    pub list: Vec<u64>,
}

impl Record {
    fn words(&self) -> Vec<u64> {
        let mut words = vec![self.what, self.number, self.count, self.value, self.flag, self.list.len() as u64];
        words.extend(&self.lengths);
        words.resize(15, 0);
        words.extend(&self.answers);
        words.resize(24, 0);
        assert!(self.lengths.len() <= 9 && self.answers.len() <= 9 && self.list.len() <= 512);
        words.extend(&self.list);
        words
    }
}

/// All NaNs have one pattern.
pub fn bits(x: f64) -> u64 {
    if x.is_nan() { 0x7ff8_0000_0000_0000 } else { x.to_bits() }
}
pub fn all_bits(list: &[f64]) -> Vec<u64> {
    list.iter().map(|x| bits(*x)).collect()
}
pub fn wide(list: &[u8]) -> Vec<u64> {
    list.iter().map(|b| *b as u64).collect()
}

/// What a list holds: component lists, a set's sheets, its orders, a table's sheets or diameters, a table's counts.
const LIST: u64 = 1_000_000;
const SET: u64 = 2_000_000;
const ORDERS: u64 = 3_000_000;
const WORKED: u64 = 4_000_000;
const SPENT: u64 = 5_000_000;

/// The number of a place, the same whatever the side: 10000 for each sheet, 100 for each row, 1 for each column.
fn place(from: u64, k: usize) -> u64 {
    from + (10_000 * (k / SHEET) + 100 * (k % SHEET / SIDE) + k % SIDE) as u64
}
/// The places that are not +0, each with its number and bits.
fn filled(from: u64, list: &[u64]) -> Vec<u64> {
    (0..list.len()).filter(|&k| list[k] != 0).flat_map(|k| [place(from, k), list[k]]).collect()
}
/// The five component lists, one behind the other: the number of a list is that of a sheet.
fn filled_lists(lists: &[f64]) -> Vec<u64> {
    lists.chunks(SIDE).enumerate().flat_map(|(k, l)| filled(LIST + 10_000 * k as u64, &all_bits(l))).collect()
}
/// FNV-1a over the words' bytes, least significant first.
fn hash(lists: &[Vec<u64>]) -> u64 {
    let bytes = lists.iter().flat_map(|l| l.iter()).flat_map(|w| w.to_le_bytes());
    bytes.fold(0xcbf2_9ce4_8422_2325, |h, b| (h ^ b as u64).wrapping_mul(0x100_0000_01b3))
}
/// How much shorter a list is than the right length: 0, 1, or 2 for an empty one.
pub fn short(lent: usize, right: usize) -> u64 {
    match right - lent {
        0 | 1 => (right - lent) as u64,
        _ => {
            assert!(lent == 0);
            2
        }
    }
}

/// A file's records, the calls in it by operation and number, and what its searches did.
#[derive(Default)]
pub struct File {
    bytes: Vec<u8>,
    pub met: BTreeMap<(&'static str, u8), u64>,
    spent: [u64; 3],
}

impl File {
    pub fn call(&mut self, name: &'static str, r: Record) {
        *self.met.entry((name, r.number as u8)).or_default() += 1;
        self.write(&r);
    }
    fn write(&mut self, r: &Record) {
        r.words().iter().for_each(|w| self.bytes.extend(w.to_le_bytes()));
    }
    pub fn lacks(&self, name: &'static str, number: u8, often: u64) -> bool {
        self.met.get(&(name, number)).is_none_or(|n| *n < often)
    }
    fn calls(&self) -> u64 {
        self.met.values().sum()
    }
    /// Takes a chain over.
    pub fn join(&mut self, chain: File) {
        self.bytes.extend(chain.bytes);
        chain.met.into_iter().for_each(|(k, n)| *self.met.entry(k).or_default() += n);
        (0..3).for_each(|k| self.spent[k] += chain.spent[k]);
    }
    /// Places changed by hand, as pairs of a place's number and bits.
    fn edit(&mut self, what: u64, places: &[(u64, u64)]) {
        for part in places.chunks(128) {
            self.write(&Record { what, list: part.iter().flat_map(|(place, value)| [*place, *value]).collect(), ..Default::default() });
        }
    }
}

fn changed(from: u64, old: &[u64], new: &[u64]) -> Vec<(u64, u64)> {
    (0..old.len()).filter(|&k| old[k] != new[k]).map(|k| (place(from, k), new[k])).collect()
}
fn changed_lists(old: &[f64], new: &[f64]) -> Vec<(u64, u64)> {
    let lists = old.chunks(SIDE).zip(new.chunks(SIDE)).enumerate();
    lists.flat_map(|(k, (a, b))| changed(LIST + 10_000 * k as u64, &all_bits(a), &all_bits(b))).collect()
}

/// What the program holds between calls: a refused call of the parameters leaves a set of count 0, any other leaves all as it was.
pub struct Quantum {
    pub set: QuantumSet,
    pub table: Vec<f64>,
    counts: Vec<u8>,
    pub file: File,
}

impl Quantum {
    pub fn new() -> Self {
        let set = QuantumSet { count: 0, m: vec![0.0; SIDE], sheets: vec![0.0; SHEETS], orders: vec![0; SHEET] };
        let mut file = File::default();
        file.write(&Record { what: 10, ..Default::default() });
        Quantum { set, table: vec![0.0; TABLE], counts: vec![0; COUNTS], file }
    }

    pub fn parameters(&mut self, l: &Lists) -> bool {
        let answer = oracle::vrq_parameters(l, oracle::QUANTUM_SET);
        let floats = [&l.m, &l.sigma, &l.epsilon_k, &l.lr, &l.la, &l.mass, &l.k_ij, &l.l_ij];
        let mut r = Record { what: 1, count: l.count as u64, ..Default::default() };
        r.lengths = floats.iter().map(|x| x.len() as u64).chain([l.order.len() as u64]).collect();
        r.list = floats.iter().flat_map(|x| all_bits(x)).chain(wide(&l.order)).collect();
        r.number = answer.as_ref().err().copied().unwrap_or(0) as u64;
        let held = answer.is_ok();
        self.set = answer.unwrap_or_else(|_| Quantum::new().set);
        r.answers =
            vec![hash(&[filled_lists(&self.set.m), filled(SET, &all_bits(&self.set.sheets)), filled(ORDERS, &wide(&self.set.orders))])];
        self.file.call(QUANTUM[0], r);
        held
    }

    pub fn by_hand(&mut self, set: QuantumSet, table: Vec<f64>) {
        let mut places = changed(0, &[self.set.count as u64], &[set.count as u64]);
        places.extend(changed_lists(&self.set.m, &set.m));
        places.extend(changed(SET, &all_bits(&self.set.sheets), &all_bits(&set.sheets)));
        places.extend(changed(ORDERS, &wide(&self.set.orders), &wide(&set.orders)));
        places.extend(changed(WORKED, &all_bits(&self.table), &all_bits(&table)));
        self.file.edit(11, &places);
        (self.set, self.table) = (set, table);
    }

    pub fn table(&mut self, t: f64, lent: [usize; 2]) {
        let answer = oracle::vrq_table(&self.set, t, lent);
        let lengths = vec![short(lent[0], TABLE), short(lent[1], COUNTS)];
        let mut r = Record { what: 2, value: bits(t), lengths, ..Default::default() };
        match answer {
            Ok((table, counts)) => {
                (self.table, self.counts) = (table.to_vec(), counts.to_vec());
                (0..COUNTS).filter(|&k| counts[k] == 20).for_each(|k| self.file.spent[k / SHEET] += 1);
            }
            Err(number) => r.number = number as u64,
        }
        r.answers = vec![hash(&[filled(WORKED, &all_bits(&self.table))]), hash(&[filled(SPENT, &wide(&self.counts))])];
        self.file.call(QUANTUM[1], r);
    }

    fn energies(&mut self, s: &State, non_additive: bool, lent: usize) {
        let answer = oracle::vrq_energies(&self.set, s, &self.table[..lent], non_additive, 3);
        let mut r = Record { what: 3, value: bits(s.temperature), flag: non_additive as u64, ..Default::default() };
        r.lengths = vec![s.fractions.len() as u64, s.densities.len() as u64, short(lent, TABLE)];
        r.list = all_bits(&s.fractions).into_iter().chain(all_bits(&s.densities)).collect();
        match answer {
            Ok(energies) => r.answers = all_bits(&energies),
            Err(number) => r.number = number as u64,
        }
        self.file.call(QUANTUM[2], r);
    }
}

pub struct Mie {
    pub set: MieSet,
    pub diameters: Vec<f64>,
    pub file: File,
}

impl Mie {
    pub fn new() -> Self {
        let mut file = File::default();
        file.write(&Record { what: 10, ..Default::default() });
        Mie { set: MieSet { count: 0, lists: vec![0.0; LISTS], sheets: vec![0.0; SHEETS] }, diameters: vec![0.0; SIDE], file }
    }

    pub fn parameters(&mut self, l: &Lists) -> bool {
        let answer = oracle::vr_parameters(l, oracle::MIE_SET);
        let floats = [&l.m, &l.sigma, &l.epsilon_k, &l.lr, &l.la, &l.k_ij, &l.l_ij];
        let mut r = Record { what: 4, count: l.count as u64, ..Default::default() };
        r.lengths = floats.iter().map(|x| x.len() as u64).collect();
        r.list = floats.iter().flat_map(|x| all_bits(x)).collect();
        r.number = answer.as_ref().err().copied().unwrap_or(0) as u64;
        let held = answer.is_ok();
        self.set = answer.unwrap_or_else(|_| Mie::new().set);
        r.answers = vec![hash(&[filled_lists(&self.set.lists), filled(SET, &all_bits(&self.set.sheets))])];
        self.file.call(MIE[0], r);
        held
    }

    pub fn by_hand(&mut self, set: MieSet, diameters: Vec<f64>) {
        let mut places = changed(0, &[self.set.count as u64], &[set.count as u64]);
        places.extend(changed_lists(&self.set.lists, &set.lists));
        places.extend(changed(SET, &all_bits(&self.set.sheets), &all_bits(&set.sheets)));
        places.extend(changed(WORKED, &all_bits(&self.diameters), &all_bits(&diameters)));
        self.file.edit(12, &places);
        (self.set, self.diameters) = (set, diameters);
    }

    pub fn diameters(&mut self, t: f64, lent: usize) {
        let mut r = Record { what: 5, value: bits(t), lengths: vec![lent as u64], ..Default::default() };
        match oracle::vr_diameters(&self.set, t, lent) {
            Ok(d) => self.diameters[..lent].copy_from_slice(&d),
            Err(number) => r.number = number as u64,
        }
        r.answers = vec![hash(&[filled(WORKED, &all_bits(&self.diameters))])];
        self.file.call(MIE[1], r);
    }

    fn dispersion(&mut self, s: &State, chain: bool, lent: usize) {
        let answer = oracle::vr_dispersion(&self.set, s, &self.diameters[..lent], chain);
        let mut r = Record { what: 6, value: bits(s.temperature), flag: chain as u64, ..Default::default() };
        r.lengths = [s.fractions.len(), s.densities.len(), lent].map(|n| n as u64).to_vec();
        r.list = all_bits(&s.fractions).into_iter().chain(all_bits(&s.densities)).collect();
        match answer {
            Ok(energy) => r.answers = vec![bits(energy)],
            Err(number) => r.number = number as u64,
        }
        self.file.call(MIE[2 + chain as usize], r);
    }
}

/// Whether a count that was set by hand means the same at a side of 8 and of 12.
pub fn at_both_sides(old: usize, new: usize) -> bool {
    new == old || new <= 8 || 12 < new
}

/// A length that is mostly right and never longer than what is there.
pub fn length(g: &mut Random, odd: bool, right: usize) -> usize {
    if odd && g.once_in(12) { g.one_of(&[right - 1, 0]) } else { right }
}

/// One chain of the quantum operations; an odd one is spoiled here and there.
fn quantum(g: &mut Random, n: usize, order: Option<u8>, odd: bool) -> File {
    let kind = if odd { g.one_of(&[Kind::Usual, Kind::Wide, Kind::Ends]) } else { Kind::Usual };
    let mut lists = states::lists_with(g, true, kind, n);
    if let Some(order) = order {
        lists.order = (0..n).map(|i| if i > 0 && g.once_in(4) { 0 } else { order }).collect();
    }
    if odd && g.once_in(3) {
        states::spoil(g, &mut lists, true);
    }
    let mut q = Quantum::new();
    if !q.parameters(&lists) {
        if g.once_in(4) {
            q.table(20.0, oracle::TABLE_AND_COUNTS);
        }
        return q.file;
    }
    let t = if odd { states::temperature(g, true) } else { g.within(15.0, 300.0) };
    if odd && g.once_in(3) {
        let mut set = q.set.clone();
        states::quantum_set_by_hand(g, &mut set);
        if set.lengths() == oracle::QUANTUM_SET && set.orders.iter().all(|o| *o <= 2) && at_both_sides(q.set.count, set.count) {
            q.by_hand(set, q.table.clone());
        }
    }
    let lent = oracle::TABLE_AND_COUNTS.map(|n| length(g, odd, n));
    q.table(t, lent);
    for turn in 0..3 {
        if odd && g.once_in(2) {
            let mut table = q.table.clone();
            states::by_hand(g, &mut table);
            q.by_hand(q.set.clone(), table);
        }
        let n = q.set.count.clamp(1, SIDE);
        let diameters = states::diameters(n, &q.table);
        let mut state =
            if odd { states::state(g, n, &[1.0; SIDE], &diameters, true) } else { states::quiet_state(g, n, &[1.0; SIDE], &diameters) };
        if !odd || g.once_in(2) {
            state.temperature = t;
        }
        let lent = length(g, odd, TABLE);
        q.energies(&state, turn != 1, lent);
    }
    q.file
}

/// One chain of SAFT-VR Mie.
fn mie(g: &mut Random, n: usize, odd: bool) -> File {
    let kind = if odd { g.one_of(&[Kind::Usual, Kind::Wide, Kind::Ends]) } else { Kind::Usual };
    let mut lists = states::lists_with(g, false, kind, n);
    if odd && g.once_in(3) {
        states::spoil(g, &mut lists, false);
    }
    let mut v = Mie::new();
    if !v.parameters(&lists) {
        if g.once_in(4) {
            v.diameters(300.0, 1);
        }
        return v.file;
    }
    let t = if odd { states::temperature(g, false) } else { g.within(150.0, 600.0) };
    if odd && g.once_in(3) {
        let mut set = v.set.clone();
        states::mie_set_by_hand(g, &mut set);
        if set.lengths() == oracle::MIE_SET && at_both_sides(v.set.count, set.count) {
            v.by_hand(set, v.diameters.clone());
        }
    }
    let right = v.set.count.clamp(1, SIDE);
    let lent = length(g, odd, right);
    v.diameters(t, lent);
    for _ in 0..2 {
        if odd && g.once_in(2) {
            let mut d = v.diameters.clone();
            states::by_hand(g, &mut d);
            v.by_hand(v.set.clone(), d);
        }
        let m = v.set.lists[..SIDE].to_vec();
        let mut state =
            if odd { states::state(g, right, &m, &v.diameters, false) } else { states::quiet_state(g, right, &m, &v.diameters) };
        if !odd || g.once_in(2) {
            state.temperature = t;
        }
        let lent = length(g, odd, right);
        v.dispersion(&state, false, lent);
        v.dispersion(&state, true, lent);
    }
    v.file
}

/// Usual chains of each count and order, odd ones, and more odd ones for the numbers that are met too seldom.
fn file(names: &[&'static str], seed: u64, chain: &dyn Fn(&mut Random, usize, usize, bool) -> File) -> File {
    let mut g = Random(seed);
    let mut file = File::default();
    for n in FEWEST..=SIDE {
        (0..6).for_each(|turn| file.join(chain(&mut g, n, turn, false)));
    }
    for _ in 0..40 {
        let n = FEWEST + g.below(SIDE + 1 - FEWEST);
        file.join(chain(&mut g, n, 0, true));
    }
    let numbers = |name| NUMBERS.iter().find(|x| x.0 == name).unwrap().1;
    for tries in 0.. {
        let lacking: Vec<_> =
            names.iter().flat_map(|name| numbers(*name).iter().map(|k| (*name, *k))).filter(|x| file.lacks(x.0, x.1, OFTEN)).collect();
        if lacking.is_empty() {
            break;
        }
        assert!(tries < 2_000_000, "not met: {lacking:?}");
        let n = FEWEST + g.below(SIDE + 1 - FEWEST);
        let one = chain(&mut g, n, 0, true);
        if lacking.iter().any(|x| one.met.contains_key(x)) {
            file.join(one);
        }
    }
    file
}

pub fn save(folder: &str, name: &str, file: &File) {
    let path = std::path::Path::new(folder).join(name);
    std::fs::write(&path, &file.bytes).unwrap();
    println!("{}: {} calls, {} bytes; searches spent: {:?}", path.display(), file.calls(), file.bytes.len(), file.spent);
    file.met.iter().for_each(|((name, number), n)| println!("  {name}, {number}: {n}"));
}

/// Writes both files into a folder.
pub fn write(folder: &str) {
    num_dual::use_functions(&oracle::PORT);
    let quantum_file = file(&QUANTUM, 0x51, &|g, n, turn, odd| quantum(g, n, (!odd).then_some(turn as u8 % 3), odd));
    assert!(quantum_file.spent.iter().all(|n| *n >= OFTEN));
    let mie_file = file(&MIE, 0x52, &|g, n, _, odd| mie(g, n, odd));
    save(folder, "quantum_9_to_12.bin", &quantum_file);
    save(folder, "mie_9_to_12.bin", &mie_file);
}
