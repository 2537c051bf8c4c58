//! The desk of Slip 12 beside the direct calls for table and energies, on the sources compiled as Rust: submissions and calls of serve
//! in any order, desks of arbitrary bits, and the processor time of a query at a full desk beside the direct calls.
use unproved::desk::{BYTES, DeskQuery, FLOATS, Served, begin, serve, submit};
use unproved::number::Refusal;
use unproved::saftvrqmie::PairsAt;
use unproved::saftvrqmie_energies::{QuantumEnergies, Set, StateLists, energies_of};
use unproved::set_lists::QuantumSet;
use unproved::{limits, saftvrqmie, set_lists};

const PLACES: usize = 16;
const SIDE: usize = 12;
const SHEET: usize = SIDE * SIDE;

/// A stream that depends on its seed alone.
struct Random(u64);

impl Random {
    fn next(&mut self) -> u64 {
        self.0 ^= self.0 << 13;
        self.0 ^= self.0 >> 7;
        self.0 ^= self.0 << 17;
        self.0
    }

    fn below(&mut self, n: u64) -> usize {
        (self.next() % n) as usize
    }

    fn unit(&mut self) -> f64 {
        (self.next() >> 11) as f64 / (1u64 << 53) as f64
    }
}

struct Query {
    count: usize,
    m: Vec<f64>,
    sheets: Vec<f64>,
    orders: Vec<u8>,
    temperature: f64,
    fractions: Vec<f64>,
    densities: Vec<f64>,
    non_additive: bool,
}

/// Energies by their bits, or the number.
type Answer = Result<[u64; 3], u8>;

fn answer(a: Result<QuantumEnergies, Refusal>) -> Answer {
    a.map(|e| [e.hard_sphere, e.dispersion, e.non_additive].map(f64::to_bits)).map_err(Refusal::code)
}

impl Query {
    fn plain(count: usize) -> Query {
        let mut sheets = vec![0.0; 6 * SHEET];
        for e in (0..count).flat_map(|i| (0..count).map(move |j| SIDE * i + j)) {
            for (k, x) in [3.0 + 0.01 * (e % SIDE + e / SIDE) as f64, 30.0, 4.0, 12.0, 6.0, 3.3e-27].into_iter().enumerate() {
                sheets[SHEET * k + e] = x;
            }
        }
        let (m, orders, share) = (vec![1.0; SIDE], vec![1; SHEET], 1.0 / count as f64);
        Query {
            count,
            m,
            sheets,
            orders,
            temperature: 30.0,
            fractions: vec![share; count],
            densities: vec![0.001; count],
            non_additive: true,
        }
    }

    /// One of few components or of twelve; now and then with a sigma outside, a mass of 0, or something that the door turns down.
    fn any(g: &mut Random) -> Query {
        let mut q = Query::plain(if g.below(20) == 0 { SIDE } else { 1 + g.below(4) });
        let odd = g.below(6) == 0;
        for e in (0..q.count).flat_map(|i| (0..q.count).map(move |j| SIDE * i + j)) {
            q.sheets[e] = if odd && g.below(4) == 0 { [0.01, f64::NAN, 40.0][g.below(3)] } else { 2.5 + g.unit() };
            q.sheets[SHEET + e] = 20.0 + 80.0 * g.unit();
            q.sheets[5 * SHEET + e] = if odd && g.below(5) == 0 { 0.0 } else { 3e-27 + 3e-26 * g.unit() };
        }
        q.orders = vec![g.below(3) as u8; SHEET];
        q.temperature = 20.0 + 100.0 * g.unit();
        q.densities = vec![0.01 * g.unit(); q.count];
        q.non_additive = g.below(2) == 0;
        match g.below(12) {
            0 => q.temperature = 0.5,
            1 => q.fractions.push(0.1),
            2 => q.orders = vec![3; SHEET],
            3 => q.densities[0] = 2.0,
            4 => q.sheets.truncate(6 * SHEET - 1),
            _ => {}
        }
        q
    }

    fn lists(&self) -> QuantumSet<'_> {
        QuantumSet { count: self.count, m: &self.m, sheets: &self.sheets, orders: &self.orders }
    }

    /// What the door says: every 1, then 4, then every 2.
    fn door(&self) -> Option<u8> {
        if self.fractions.len() != self.count || self.densities.len() != self.count {
            return Some(Refusal::Length.code());
        }
        match set_lists::quantum_answer(&self.lists(), true) {
            Err(r) => Some(r.code()),
            Ok(()) => (!limits::state_within(self.count, self.temperature, &self.fractions, &self.densities)).then_some(2),
        }
    }

    fn directly(&self) -> Answer {
        let (m, sheets, orders) = (set_lists::places(&self.m, 0), set_lists::flat(&self.sheets), set_lists::order_records(&self.orders));
        let (mut table, mut counts) = (vec![7.0; 4 * SHEET], vec![9; 3 * SHEET]);
        let pairs = PairsAt { n: self.count, sheets: &sheets, orders, temperature: self.temperature };
        saftvrqmie::table_of(&pairs, &mut table, &mut counts).map_err(Refusal::code)?;
        let (x, rho) = (&self.fractions, &self.densities);
        let set = Set { count: self.count, m: &m, sheets: &sheets, orders: &orders };
        let state = StateLists { temperature: self.temperature, fractions: x, densities: rho, table: &table, non_additive: self.non_additive };
        answer(energies_of(&set, &state))
    }

    fn submit(&self, floats: &mut [f64], bytes: &mut [u8]) -> Result<usize, u8> {
        let query = DeskQuery {
            lists: self.lists(),
            temperature: self.temperature,
            fractions: &self.fractions,
            densities: &self.densities,
            non_additive: self.non_additive,
        };
        submit(floats, bytes, &query).map_err(Refusal::code)
    }

    fn pairs(&self) -> usize {
        self.count * self.count
    }
}

fn arbitrary(g: &mut Random) -> (Vec<f64>, Vec<u8>) {
    let floats = (0..FLOATS).map(|_| f64::from_bits(g.next())).collect();
    (floats, (0..BYTES).map(|_| if g.below(2) == 0 { g.below(13) as u8 } else { g.next() as u8 }).collect())
}

/// A query in its place, the units that it had, and the calls that were made since it came.
struct Waiting {
    query: Query,
    units: usize,
    calls: usize,
}

/// Calls in any order at one desk: finished queries, of them 6 and 7, queries turned down, of them 17.
fn interleaved(g: &mut Random, calls: usize) -> [usize; 5] {
    let (mut floats, mut bytes) = arbitrary(g);
    assert!(begin(&mut floats, &mut bytes).is_ok());
    let mut places: Vec<Option<Waiting>> = (0..PLACES).map(|_| None).collect();
    let (mut last, mut tally, rarely) = (PLACES - 1, [0; 5], 4 + 12 * g.below(3) as u64);
    for _ in 0..calls {
        if g.below(rarely) == 0 {
            let query = Query::any(g);
            let free = places.iter().position(Option::is_none);
            let wanted = query.door().map_or(free.ok_or(17), Err);
            let before = (floats.iter().map(|x| x.to_bits()).collect::<Vec<_>>(), bytes.clone());
            let given = query.submit(&mut floats, &mut bytes);
            assert_eq!(given, wanted);
            match given {
                Ok(k) => places[k] = Some(Waiting { query, units: 0, calls: 0 }),
                Err(n) => {
                    tally[3] += 1;
                    tally[4] += (n == 17) as usize;
                    assert!(before.0.into_iter().eq(floats.iter().map(|x| x.to_bits())) && before.1 == bytes);
                }
            }
            continue;
        }
        let next = (1..=PLACES).map(|i| (last + i) % PLACES).find(|&k| places[k].is_some());
        places.iter_mut().flatten().for_each(|w| w.calls += 1);
        match (next, serve(&mut floats, &mut bytes)) {
            (None, Ok(Served::Idle)) => {}
            (Some(k), Ok(Served::Worked)) => {
                last = k;
                let w = places[k].as_mut().unwrap();
                w.units += 1;
                assert!(w.units < w.query.pairs());
            }
            (Some(k), Ok(Served::Finished(j, e))) => {
                last = k;
                let w = places[k].take().unwrap();
                let given = answer(e);
                assert!(j == k && w.calls <= PLACES * w.query.pairs() && given == w.query.directly());
                assert!(given != Err(7) || w.units + 1 == w.query.pairs());
                tally[0] += 1;
                tally[1] += (given == Err(6)) as usize;
                tally[2] += (given == Err(7)) as usize;
            }
            _ => panic!("a call told another thing"),
        }
    }
    tally
}

#[repr(C)]
struct Time {
    seconds: i64,
    nanoseconds: i64,
}

unsafe extern "C" {
    fn clock_gettime(clock: i32, time: *mut Time) -> i32;
}

/// Processor time of this thread, in microseconds.
fn now() -> f64 {
    let mut t = Time { seconds: 0, nanoseconds: 0 };
    unsafe { clock_gettime(3, &mut t) };
    t.seconds as f64 * 1e6 + t.nanoseconds as f64 * 1e-3
}

/// A query at a desk with sixteen, and the direct calls: the least of some runs.
fn times(count: usize) -> (f64, f64) {
    let (q, mut least) = (Query::plain(count), (f64::MAX, f64::MAX));
    for _ in 0..60 {
        let (mut floats, mut bytes) = (vec![0.0; FLOATS], vec![0; BYTES]);
        begin(&mut floats, &mut bytes);
        (0..PLACES).for_each(|k| assert_eq!(q.submit(&mut floats, &mut bytes), Ok(k)));
        let start = now();
        (0..PLACES * q.pairs()).for_each(|_| assert!(!matches!(serve(&mut floats, &mut bytes), Ok(Served::Idle))));
        least.0 = least.0.min((now() - start) / PLACES as f64);
        assert!(matches!(serve(&mut floats, &mut bytes), Ok(Served::Idle)));
        let start = now();
        (0..4).for_each(|_| assert!(std::hint::black_box(q.directly()).is_ok()));
        least.1 = least.1.min((now() - start) / 4.0);
    }
    least
}

fn main() {
    let mut g = Random(88172645463325252);
    let mut all = [0; 5];
    for _ in 0..60 {
        let tally = interleaved(&mut g, 2500);
        all.iter_mut().zip(tally).for_each(|(a, t)| *a += t);
    }
    println!("{} queries finished as directly, {} with 6, {} with 7; {} turned down, {} with 17", all[0], all[1], all[2], all[3], all[4]);
    let mut finished = 0;
    for _ in 0..2000 {
        let (mut floats, mut bytes) = arbitrary(&mut g);
        finished += (0..40).filter(|_| matches!(serve(&mut floats, &mut bytes), Ok(Served::Finished(..)))).count();
    }
    println!("2000 desks of arbitrary bits: {finished} queries finished");
    for count in [1, 2, 4, 8, SIDE] {
        let (desk, direct) = times(count);
        println!("{count} components: a query at a full desk {desk:.1} us, directly {direct:.1} us, {:.3} of it", desk / direct);
    }
}
