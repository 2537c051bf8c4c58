//! Fuel cards of both forms: a writer, a reader and a mover of their own, bit by bit, and what the parameters then have to answer.
use crate::calls::Caller;
use crate::compare::{bytes, floats, judge};
use crate::oracle::{self, Lists, MieSet, QuantumSet};
use crate::random::Random;
use crate::sizes::{LISTS, SHEET, SHEETS, SIDE};
use crate::states;
use crate::tally::Tally;

/// What a call lends: set_m, set_lists, set_sheets, set_orders.
pub const LENT: [usize; 4] = [SIDE, LISTS, SHEETS, SHEET];

#[derive(Clone, Copy, Debug, PartialEq)]
pub enum Form {
    Older,
    Newer,
}
use Form::{Newer, Older};

impl Form {
    /// The quantum model's number, and the most components.
    fn limits(self) -> (u64, usize) {
        if self == Older { (0, 8) } else { (2, 12) }
    }
    fn reading(self) -> &'static str {
        if self == Older { "card_parameters" } else { "newer_card_parameters" }
    }
}

pub enum Set {
    Quantum(QuantumSet),
    Mie(MieSet),
}

/// What a card says, as patterns: five numbers of each component, its order, and the pairs' numbers row by row.
#[derive(Clone, Debug, PartialEq)]
struct Fields {
    quantum: bool,
    components: Vec<[u64; 5]>,
    orders: Vec<u64>,
    pairs: Vec<u64>,
}

/// Bits as digits of a text, the most significant first.
fn put(bits: &mut String, width: usize, value: u64) {
    bits.push_str(&format!("{value:064b}")[64 - width..]);
}

fn packed(bits: &str) -> Vec<u8> {
    let whole = format!("{bits}{}", "0".repeat((8 - bits.len() % 8) % 8));
    (0..whole.len() / 8).map(|k| u8::from_str_radix(&whole[8 * k..8 * k + 8], 2).unwrap()).collect()
}

/// The fields of some lists, right or not.
fn fields_of(l: &Lists, quantum: bool) -> Fields {
    let n = l.count;
    let columns = if quantum { [&l.sigma, &l.epsilon_k, &l.lr, &l.la, &l.mass] } else { [&l.m, &l.sigma, &l.epsilon_k, &l.lr, &l.la] };
    Fields {
        quantum,
        components: (0..n).map(|i| columns.map(|c| c[i].to_bits())).collect(),
        orders: if quantum { l.order.iter().map(|o| *o as u64 & 3).collect() } else { vec![] },
        pairs: (0..n).flat_map(|i| (i + 1..n).flat_map(move |j| [&l.k_ij, &l.l_ij].map(|p| p[n * i + j].to_bits()))).collect(),
    }
}

/// The card of some fields; `store` keeps a +0 that a newer card is to spare, at its place among the pairs' numbers.
fn written(f: &Fields, form: Form, store: Option<usize>) -> String {
    let mut bits = String::new();
    put(&mut bits, 2, form.limits().0 + !f.quantum as u64);
    put(&mut bits, 4, f.components.len() as u64);
    for (i, component) in f.components.iter().enumerate() {
        component.iter().for_each(|x| put(&mut bits, 64, *x));
        f.orders.get(i).into_iter().for_each(|x| put(&mut bits, 2, *x));
    }
    for (k, &x) in f.pairs.iter().enumerate() {
        let stored = form == Older || x != 0 || store == Some(k);
        if form == Newer {
            put(&mut bits, 1, stored as u64);
        }
        if stored {
            put(&mut bits, 64, x);
        }
    }
    bits
}

struct Reader {
    bits: String,
    at: usize,
}
impl Reader {
    fn take(&mut self, width: usize) -> Result<u64, u8> {
        let field = self.bits.get(self.at..self.at + width).ok_or(9)?;
        self.at += width;
        Ok(u64::from_str_radix(field, 2).unwrap())
    }
    fn pair_value(&mut self, form: Form) -> Result<u64, u8> {
        if form == Older {
            return self.take(64);
        }
        if self.take(1)? == 0 {
            return Ok(0);
        }
        match self.take(64)? {
            0 => Err(15),
            x => Ok(x),
        }
    }
}

/// The fields of a card, or why it does not read well.
fn read(card: &[u8], form: Form) -> Result<Fields, u8> {
    let (first, most) = form.limits();
    let mut r = Reader { bits: card.iter().map(|b| format!("{b:08b}")).collect(), at: 0 };
    let (model, n) = (r.take(2)?, r.take(4)? as usize);
    if !(first..=first + 1).contains(&model) || !(1..=most).contains(&n) {
        return Err(10);
    }
    let mut f = Fields { quantum: model == first, components: vec![], orders: vec![], pairs: vec![] };
    for _ in 0..n {
        f.components.push([r.take(64)?, r.take(64)?, r.take(64)?, r.take(64)?, r.take(64)?]);
        if f.quantum {
            f.orders.push(r.take(2)?);
        }
    }
    for _ in 0..n * (n - 1) {
        f.pairs.push(r.pair_value(form)?);
    }
    if r.bits.len() - r.at >= 8 || r.bits[r.at..].contains('1') { Err(11) } else { Ok(f) }
}

/// The lists that a card's fields are.
fn lists(f: &Fields) -> Lists {
    let n = f.components.len();
    let column = |e: usize| -> Vec<f64> { f.components.iter().map(|c| f64::from_bits(c[e])).collect() };
    let square = |e: usize| {
        let (mut list, mut next) = (vec![0.0; n * n], e);
        for i in 0..n {
            for j in i + 1..n {
                let x = f64::from_bits(f.pairs[next]);
                (list[n * i + j], list[n * j + i]) = (x, x);
                next += 2;
            }
        }
        list
    };
    // m stands first, or is not on the card
    let q = f.quantum as usize;
    Lists {
        count: n,
        m: if f.quantum { vec![1.0; n] } else { column(0) },
        sigma: column(1 - q),
        epsilon_k: column(2 - q),
        lr: column(3 - q),
        la: column(4 - q),
        mass: if f.quantum { column(4) } else { vec![0.0; n] },
        order: if f.quantum { f.orders.iter().map(|o| *o as u8).collect() } else { vec![0; n] },
        k_ij: square(0),
        l_ij: square(1),
    }
}

fn parameters(card: &[u8], form: Form, out: [usize; 4]) -> Result<Set, u8> {
    if out != LENT {
        return Err(1);
    }
    let f = read(card, form)?;
    if f.quantum {
        Ok(Set::Quantum(oracle::vrq_parameters(&lists(&f), oracle::QUANTUM_SET)?))
    } else {
        Ok(Set::Mie(oracle::vr_parameters(&lists(&f), oracle::MIE_SET)?))
    }
}

fn compare(tally: &mut Tally, name: &'static str, case: u64, c: &mut Caller, card: &[u8], form: Form, out: [usize; 4]) {
    let Some(number) = c.card_parameters(card, form, out) else { return };
    judge(tally, name, case, c, 6, number, &parameters(card, form, out), |set| match set {
        Set::Quantum(s) => {
            bytes("model", &c.lent.out(5), &[0])?;
            if c.lent.out::<usize>(4) != [s.count] {
                return Err(format!("count {:?}", c.lent.out::<usize>(4)));
            }
            floats("m", &c.lent.out(3), &s.m)?;
            if !c.lent.kept_from_end(2) {
                return Err("changed the lists of the other model".into());
            }
            floats("sheets", &c.lent.out(1), &s.sheets)?;
            bytes("orders", &c.lent.out(0), &s.orders)
        }
        Set::Mie(s) => {
            bytes("model", &c.lent.out(5), &[1])?;
            if c.lent.out::<usize>(4) != [s.count] {
                return Err(format!("count {:?}", c.lent.out::<usize>(4)));
            }
            floats("lists", &c.lent.out(2), &s.lists)?;
            floats("sheets", &c.lent.out(1), &s.sheets)?;
            if c.lent.kept_from_end(3) && c.lent.kept_from_end(0) { Ok(()) } else { Err("changed the lists of the other model".into()) }
        }
    });
}

/// The card of some lists in a list of so many bytes: the parameters' tests for 1 to 5, then 10, then 12.
fn card_of(l: &Lists, quantum: bool, out: usize) -> Result<Vec<u8>, u8> {
    let tested = if quantum {
        oracle::vrq_parameters(l, oracle::QUANTUM_SET).map(|_| ())
    } else {
        oracle::vr_parameters(l, oracle::MIE_SET).map(|_| ())
    };
    match tested {
        Ok(()) | Err(6) => {}
        Err(number) => return Err(number),
    }
    if l.count > Older.limits().1 {
        return Err(10);
    }
    let card = packed(&written(&fields_of(l, quantum), Older, None));
    if out < card.len() { Err(12) } else { Ok(card) }
}

/// A card moved to a form, in a list of so many bytes.
fn moved(card: &[u8], to: Form, out: usize) -> Result<Vec<u8>, u8> {
    let f = read(card, if to == Newer { Older } else { Newer })?;
    if f.components.len() > to.limits().1 {
        return Err(16);
    }
    let card = packed(&written(&f, to, None));
    if out < card.len() { Err(12) } else { Ok(card) }
}

/// Whether a card, its length and nothing behind it were written.
fn card_is(c: &Caller, card: &[u8]) -> Result<(), String> {
    let (got, length) = (c.lent.out::<u8>(1), c.lent.out::<usize>(0));
    if length != [card.len()] {
        return Err(format!("length {length:?}, expected {}", card.len()));
    }
    bytes("card", &got[..card.len()], card)?;
    if c.lent.kept_behind(1, card.len()) { Ok(()) } else { Err("wrote behind the card".into()) }
}

fn compare_card_of(tally: &mut Tally, names: [&'static str; 2], case: u64, c: &mut Caller, l: &Lists, quantum: bool, out: usize) {
    let Some(number) = c.card_of(l, quantum, out) else { return };
    let expected = card_of(l, quantum, out);
    judge(tally, names[quantum as usize], case, c, 2, number, &expected, |card| card_is(c, card));
    // it reads as the lists
    if let Ok(card) = expected {
        let wanted = if quantum { l.clone() } else { Lists { mass: vec![0.0; l.count], order: vec![0; l.count], ..l.clone() } };
        let same = read(&card, Older).is_ok_and(|f| format!("{:?}", lists(&f)) == format!("{wanted:?}"));
        tally.note("oracle: cards read", 0, same, || format!("case {case}: {l:?}"));
    }
}

fn compare_moved(tally: &mut Tally, names: [&'static str; 2], case: u64, c: &mut Caller, card: &[u8], to: Form, out: usize) {
    let Some(number) = c.moved(card, to, out) else { return };
    let expected = moved(card, to, out);
    judge(tally, names[(to == Newer) as usize], case, c, 2, number, &expected, |card| card_is(c, card));
    // and back
    if let Ok(there) = expected {
        let from = if to == Newer { Older } else { Newer };
        tally.note("oracle: moves back", 0, moved(&there, from, 9999).as_deref() == Ok(card), || format!("case {case}: {card:?}"));
    }
}
const CARD_OF: [&str; 2] = ["vr_card", "vrq_card"];
const MOVED: [&str; 2] = ["card_to_older", "card_to_newer"];

/// The bytes of a list that is lent for a card: enough, just enough, too few, none.
fn room(g: &mut Random, length: usize) -> usize {
    match g.below(8) {
        0 => g.below(length + 1),
        1 => length.saturating_sub(1),
        2 => 0,
        3 => 2000,
        4 => length + g.below(9),
        _ => length,
    }
}

/// A card of lists that are mostly right, of at most as many components as its four bits can say.
fn some_card(g: &mut Random, form: Form) -> Vec<u8> {
    let quantum = g.once_in(2);
    let mut l = states::lists(g, quantum);
    if g.once_in(4) {
        states::spoil(g, &mut l, quantum);
    }
    let n = l.count;
    if n > 15 || [&l.m, &l.sigma, &l.epsilon_k, &l.lr, &l.la].iter().any(|x| x.len() != n) || l.k_ij.len() != n * n || l.l_ij.len() != n * n
    {
        return vec![g.next() as u8; 1 + g.below(3)];
    }
    if quantum && (l.mass.len() != n || l.order.len() != n) {
        return vec![];
    }
    if n > 0 && g.once_in(8) {
        let k = g.below(n);
        l.sigma[k] = f64::from_bits(g.nan());
    }
    if n > 0 && quantum && g.once_in(8) {
        let k = g.below(n);
        l.order[k] = g.below(4) as u8;
    }
    let mut f = fields_of(&l, quantum);
    // pairs' numbers of every kind: zeros of both signs, NaNs, and what is not 0 by one bit
    for x in &mut f.pairs {
        if g.once_in(4) {
            *x = g.one_of(&[0, 0, 0, 1 << 63]);
        }
        if g.once_in(100) {
            *x = if g.once_in(2) { g.nan() } else { 1 << g.below(64) };
        }
    }
    let store = (form == Newer && !f.pairs.is_empty() && g.once_in(4)).then(|| g.below(f.pairs.len()));
    packed(&written(&f, form, store))
}

pub fn run(count: u64, seed: u64, tally: &mut Tally) {
    let mut c = Caller::new(seed);
    for case in 0..count {
        let g = &mut Random(seed ^ case.wrapping_mul(0x9e37_79b9_7f4a_7c15) ^ 0xcafe);
        for form in [Older, Newer] {
            let mut card = some_card(g, form);
            match g.below(8) {
                0 => card.truncate(g.below(card.len() + 1)),
                1 => card.extend(vec![if g.once_in(2) { 0 } else { g.next() as u8 }; 1 + g.below(3)]),
                2 if !card.is_empty() => {
                    let k = if g.once_in(2) { card.len() - 1 } else { g.below(card.len()) };
                    card[k] ^= 1 << g.below(8);
                }
                3 if !card.is_empty() => card[0] = g.next() as u8,
                _ => {}
            }
            let out = if g.once_in(25) { LENT.map(|n| if g.once_in(2) { g.below(900) } else { n }) } else { LENT };
            compare(tally, form.reading(), case, &mut c, &card, form, out);
            for to in [Older, Newer] {
                let length = moved(&card, to, 9999).map_or(card.len(), |m| m.len());
                compare_moved(tally, MOVED, case, &mut c, &card, to, room(g, length));
            }
        }
        let quantum = g.once_in(2);
        let mut l = states::lists(g, quantum);
        if g.once_in(3) {
            states::spoil(g, &mut l, quantum);
        }
        let length = card_of(&l, quantum, 9999).map_or(700, |card| card.len());
        compare_card_of(tally, CARD_OF, case, &mut c, &l, quantum, room(g, length));
    }
    prefixes(seed, tally, &mut c);
}

/// Each beginning of a card, and each filling bit set; of a newer one each +0 of a pair stored too.
fn prefixes(seed: u64, tally: &mut Tally, c: &mut Caller) {
    let g = &mut Random(seed);
    let sizes = [(Older, 1), (Older, 2), (Older, 8), (Newer, 1), (Newer, 2), (Newer, 8), (Newer, 12)];
    for ((form, n), quantum) in sizes.into_iter().flat_map(|s| [(s, true), (s, false)]) {
        let name = form.reading();
        let mut f = fields_of(&states::lists_with(g, quantum, states::Kind::Usual, n), quantum);
        f.pairs.iter_mut().for_each(|x| *x = if g.once_in(2) { 0 } else { *x });
        let bits = written(&f, form, None);
        let card = packed(&bits);
        let other = if form == Older { Newer } else { Older };
        for k in 0..=card.len() {
            compare(tally, name, k as u64, c, &card[..k], form, LENT);
            compare_moved(tally, MOVED, k as u64, c, &card[..k], other, 2000);
            compare_moved(tally, MOVED, k as u64, c, &card, other, k);
        }
        for k in 0..8 * card.len() - bits.len() {
            let mut other = card.clone();
            *other.last_mut().unwrap() |= 1 << k;
            compare(tally, name, k as u64, c, &other, form, LENT);
        }
        for k in 0..f.pairs.len() {
            f.pairs[k] = 0;
            compare(tally, name, k as u64, c, &packed(&written(&f, form, Some(k))), form, LENT);
        }
    }
}

/// Arbitrary bytes.
pub fn fuzz(g: &mut Random, case: u64, c: &mut Caller, tally: &mut Tally) {
    for form in [Older, Newer] {
        let (first, most) = form.limits();
        let n = if g.once_in(2) { g.below(200) } else { g.below(1700) };
        let mut card: Vec<u8> = (0..n).map(|_| g.next() as u8).collect();
        if g.once_in(2) && n > 0 {
            card[0] = (first as u8 + g.below(2) as u8) << 6 | (1 + g.below(most) as u8) << 2 | card[0] & 3;
        }
        let name = if form == Older { "fuzz card_parameters" } else { "fuzz newer_card_parameters" };
        compare(tally, name, case, c, &card, form, LENT);
        compare_moved(
            tally,
            ["fuzz card_to_older", "fuzz card_to_newer"],
            case,
            c,
            &card,
            if form == Older { Newer } else { Older },
            g.below(2000),
        );
    }
}

/// Arbitrary lists into a card.
pub fn fuzz_lists(g: &mut Random, case: u64, c: &mut Caller, tally: &mut Tally, l: &Lists, quantum: bool) {
    compare_card_of(tally, ["fuzz vr_card", "fuzz vrq_card"], case, c, l, quantum, g.below(1000));
}
