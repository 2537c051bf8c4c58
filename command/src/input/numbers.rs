//! Numbers of a file or of the command line, single, in lists and in even steps.
use crate::input::lines::shown;

/// The most states, and so the most numbers of a list in even steps.
pub const MOST_STATES: usize = 1_000_000;

pub fn number(text: &str) -> Result<f64, String> {
    text.trim().parse().map_err(|_| format!("{} is not a number", shown(text.trim())))
}

pub fn whole(text: &str, most: usize) -> Result<usize, String> {
    let read = text.trim().parse::<usize>().ok().filter(|n| *n <= most);
    read.ok_or_else(|| format!("{} is not a whole number from 0 to {most}", shown(text.trim())))
}

pub fn yes(text: &str) -> Result<bool, String> {
    match text.trim() {
        "yes" => Ok(true),
        "no" => Ok(false),
        other => Err(format!("{} is neither yes nor no", shown(other))),
    }
}

/// Numbers apart by blanks or commas.
pub fn list(text: &str) -> Result<Vec<f64>, String> {
    text.split([' ', '\t', ',']).filter(|w| !w.is_empty()).map(number).collect()
}

/// A list, or `A to B in N`: N numbers in even steps, A and B among them.
pub fn spread(text: &str) -> Result<Vec<f64>, String> {
    let words: Vec<&str> = text.split_whitespace().collect();
    let [from, "to", to, "in", count] = words[..] else { return list(text) };
    let (from, to, count) = (number(from)?, number(to)?, whole(count, MOST_STATES)?);
    if count < 2 {
        return Err("'A to B in N' takes an N of 2 or more".into());
    }
    let last = (count - 1) as f64;
    Ok((0..count).map(|k| if k + 1 == count { to } else { from + (to - from) * (k as f64 / last) }).collect())
}

/// A number as short as it can be written and still be read back to the same bits.
pub fn written(x: f64) -> String {
    let scientific = format!("{x:e}");
    match scientific.split_once('e').and_then(|(_, e)| e.parse::<i32>().ok()) {
        Some(exponent) if !(-5..16).contains(&exponent) => scientific,
        _ => format!("{x}"),
    }
}

#[cfg(test)]
mod tests {
    use super::*;

    #[test]
    fn even_steps_hold_both_ends() {
        assert_eq!(spread("18 to 28 in 6").unwrap(), [18.0, 20.0, 22.0, 24.0, 26.0, 28.0]);
        assert_eq!(spread("0 to 0.3 in 4").unwrap().last(), Some(&0.3));
        assert_eq!(spread("1, 2 3").unwrap(), [1.0, 2.0, 3.0]);
        assert!(spread("1 to 2 in 1").is_err() && spread("1 to 2 in 1000001").is_err() && spread("1 to two in 3").is_err());
    }

    #[test]
    fn what_is_written_is_read_back_to_the_same_bits() {
        for x in [0.0, -0.0, 0.1, 3.3474472e-27, 2.5e29, -0.08076868223778051, f64::MIN_POSITIVE, 5e-324, f64::MAX, 1e15, 1e16] {
            assert_eq!(number(&written(x)).unwrap().to_bits(), x.to_bits());
        }
        assert_eq!(written(3.3474472e-27), "3.3474472e-27");
    }
}
