//! How the order lists fall: the port's three numbers beside a walk of the Rust over every list, where these are few.
use crate::calls::Caller;
use crate::compare::judge;
use crate::oracle;
use crate::sizes::SIDE;
use crate::tally::Tally;

/// The most components whose lists are all walked.
const WALKED: usize = 8;

pub fn run(seed: u64, tally: &mut Tally) {
    let mut c = Caller::new(seed);
    for count in (0..=SIDE + 2).chain([usize::MAX - 1, usize::MAX]) {
        for out in [3, 0, 2, 4] {
            let Some(number) = c.order_counts(count, out) else { return };
            if WALKED < count && count <= SIDE && out == 3 {
                all_fall(tally, count, &c, number);
                continue;
            }
            let expected = oracle::order_counts(count, out);
            judge(tally, "order_counts", count as u64, &c, 1, number, &expected, |wanted| {
                let got: Vec<u64> = c.lent.out(0);
                if got == wanted { Ok(()) } else { Err(format!("{got:?}, expected {wanted:?}")) }
            });
        }
    }
}

/// Too many lists to walk: they all fall in one of the three ways, and those that pass are of 0 and 1, or of 0 and 2.
fn all_fall(tally: &mut Tally, count: usize, c: &Caller, number: u8) {
    let passing = 2 * (1u64 << count) - 1;
    judge(tally, "order_counts", count as u64, c, 1, number, &Ok(()), |_| {
        let got: Vec<u64> = c.lent.out(0);
        if got[0] == passing && got.iter().sum::<u64>() == 1 << (2 * count) { Ok(()) } else { Err(format!("{got:?}")) }
    });
}
