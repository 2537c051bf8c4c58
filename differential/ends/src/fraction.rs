//! Fractions without rounding: a sign, a whole numerator and denominator, and a power of two. They are not reduced but for factors 2.
use std::cmp::Ordering;

/// A whole number from its digits of 64 bits, the lowest first, the highest not 0.
type Whole = Vec<u64>;

#[derive(Clone, Debug)]
pub struct Fraction {
    negative: bool,
    over: Whole,
    under: Whole,
    power: i64,
}

fn trimmed(mut a: Whole) -> Whole {
    while a.last() == Some(&0) {
        a.pop();
    }
    a
}
fn product(a: &[u64], b: &[u64]) -> Whole {
    if *a == [1] {
        return b.to_vec();
    }
    if *b == [1] {
        return a.to_vec();
    }
    let mut r = vec![0; a.len() + b.len()];
    for (i, &x) in a.iter().enumerate() {
        let mut carry = 0;
        for (j, &y) in b.iter().enumerate() {
            let t = x as u128 * y as u128 + r[i + j] as u128 + carry as u128;
            (r[i + j], carry) = (t as u64, (t >> 64) as u64);
        }
        r[i + b.len()] = carry;
    }
    trimmed(r)
}
fn compared(a: &[u64], b: &[u64]) -> Ordering {
    a.len().cmp(&b.len()).then_with(|| a.iter().rev().cmp(b.iter().rev()))
}
fn sum(a: &[u64], b: &[u64]) -> Whole {
    let (a, b) = if a.len() < b.len() { (b, a) } else { (a, b) };
    let (mut r, mut carry) = (a.to_vec(), false);
    for (i, x) in r.iter_mut().enumerate() {
        let (t, c) = x.overflowing_add(*b.get(i).unwrap_or(&0));
        let (t, d) = t.overflowing_add(carry as u64);
        (*x, carry) = (t, c || d);
    }
    if carry {
        r.push(1);
    }
    r
}
/// a - b, a being at least b.
fn difference(a: &[u64], b: &[u64]) -> Whole {
    let (mut r, mut borrow) = (a.to_vec(), false);
    for (i, x) in r.iter_mut().enumerate() {
        let (t, c) = x.overflowing_sub(*b.get(i).unwrap_or(&0));
        let (t, d) = t.overflowing_sub(borrow as u64);
        (*x, borrow) = (t, c || d);
    }
    trimmed(r)
}
fn raised(a: &[u64], places: u64) -> Whole {
    let (words, bits) = ((places / 64) as usize, places % 64);
    let mut r = vec![0; words];
    let mut carry = 0;
    for &x in a {
        r.push(if bits == 0 { x } else { x << bits | carry });
        carry = if bits == 0 { 0 } else { x >> (64 - bits) };
    }
    r.push(carry);
    trimmed(r)
}
/// Without its factors 2, and how many there were.
fn odd(a: Whole) -> (Whole, i64) {
    let Some(words) = a.iter().position(|x| *x != 0) else {
        return (a, 0);
    };
    let bits = a[words].trailing_zeros();
    if words == 0 && bits == 0 {
        return (a, 0);
    }
    let r = (words..a.len()).map(|i| if bits == 0 { a[i] } else { a[i] >> bits | a.get(i + 1).unwrap_or(&0) << (64 - bits) });
    (trimmed(r.collect()), 64 * words as i64 + bits as i64)
}

impl Fraction {
    fn new(negative: bool, over: Whole, under: Whole, power: i64) -> Fraction {
        let ((over, a), (under, b)) = (odd(over), odd(under));
        Fraction { negative: negative && !over.is_empty(), over, under, power: power + a - b }
    }
    /// The fraction that a finite float stands for.
    pub fn of(x: f64) -> Fraction {
        assert!(x.is_finite());
        let (bits, exponent) = (x.to_bits() & ((1 << 52) - 1), (x.to_bits() >> 52 & 0x7ff) as i64);
        let (digits, power) = if exponent == 0 { (bits, -1074) } else { (bits | 1 << 52, exponent - 1075) };
        Fraction::new(x < 0.0, trimmed(vec![digits]), vec![1], power)
    }
    /// The fraction that a decimal writes, a minus before it or not.
    pub fn decimal(text: &str) -> Fraction {
        let (over, places) = text.trim_start_matches('-').split_once('.').unwrap();
        let digits = |text: &str| text.bytes().fold(vec![], |n, d| sum(&product(&n, &[10]), &trimmed(vec![(d - b'0') as u64])));
        let one_and_zeros = format!("1{}", "0".repeat(places.len()));
        Fraction::new(text.starts_with('-'), digits(&format!("{over}{places}")), digits(&one_and_zeros), 0)
    }
    pub fn negated(&self) -> Fraction {
        Fraction { negative: !self.negative && !self.over.is_empty(), ..self.clone() }
    }
    pub fn plus(&self, o: &Fraction) -> Fraction {
        let power = self.power.min(o.power);
        let apart = compared(&self.under, &o.under) != Ordering::Equal;
        let part = |a: &Fraction, b: &Fraction| {
            let over = raised(&a.over, (a.power - power) as u64);
            if apart { product(&over, &b.under) } else { over }
        };
        if self.over.is_empty() {
            return o.clone();
        }
        if o.over.is_empty() {
            return self.clone();
        }
        let (a, b) = (part(self, o), part(o, self));
        let under = if apart { product(&self.under, &o.under) } else { self.under.clone() };
        let (negative, over) = if self.negative == o.negative {
            (self.negative, sum(&a, &b))
        } else if compared(&a, &b) == Ordering::Less {
            (o.negative, difference(&b, &a))
        } else {
            (self.negative, difference(&a, &b))
        };
        Fraction::new(negative, over, under, power)
    }
    pub fn minus(&self, o: &Fraction) -> Fraction {
        self.plus(&o.negated())
    }
    pub fn times(&self, o: &Fraction) -> Fraction {
        let (over, under) = (product(&self.over, &o.over), product(&self.under, &o.under));
        Fraction::new(self.negative != o.negative, over, under, self.power + o.power)
    }
    /// None for a divisor of 0.
    pub fn by(&self, o: &Fraction) -> Option<Fraction> {
        if o.over.is_empty() {
            return None;
        }
        let (over, under) = (product(&self.over, &o.under), product(&self.under, &o.over));
        Some(Fraction::new(self.negative != o.negative, over, under, self.power - o.power))
    }
    pub fn at_most(&self, o: &Fraction) -> bool {
        let d = self.minus(o);
        d.negative || d.over.is_empty()
    }
    /// Digits of the numerator and denominator, in bits.
    pub fn size(&self) -> usize {
        64 * (self.over.len() + self.under.len())
    }
}

#[cfg(test)]
mod tests {
    use super::*;

    #[test]
    fn arithmetic_of_small_fractions() {
        let f = Fraction::of;
        let third = f(1.0).by(&f(3.0)).unwrap();
        let sixth = f(1.0).by(&f(6.0)).unwrap();
        let same = |a: &Fraction, b: &Fraction| a.at_most(b) && b.at_most(a);
        assert!(same(&third.plus(&sixth), &f(0.5)) && same(&third.minus(&sixth), &sixth) && same(&sixth.minus(&third), &sixth.negated()));
        assert!(same(&third.times(&f(-4.5)), &f(-1.5)) && f(0.0).by(&f(-0.0)).is_none());
        // a third lies between two neighbours
        let x: f64 = 1.0 / 3.0;
        assert!(f(x.next_down()).at_most(&third) && third.at_most(&f(x.next_up())) && !same(&f(x), &third));
        // (2^64 + 1)^2 - (2^64 - 1)^2 = 2^66, by carries over several digits
        let (a, b) = (f(2f64.powi(64)).plus(&f(1.0)), f(2f64.powi(64)).minus(&f(1.0)));
        assert!(same(&a.times(&a).minus(&b.times(&b)), &f(2f64.powi(66))));
        assert!(
            same(&Fraction::decimal("-0.3750"), &f(-0.375))
                && same(&Fraction::decimal("10.0"), &f(10.0))
                && same(&Fraction::decimal("0.000"), &f(0.0))
        );
        assert!(same(&f(5e-324).times(&f(f64::MAX)).by(&f(5e-324)).unwrap(), &f(f64::MAX)));
    }
}
