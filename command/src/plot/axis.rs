//! An axis: a range that ends at ticks, their labels, and where a number stands in pixels.
use crate::input::numbers::written;

#[derive(Debug, Clone, PartialEq)]
pub struct Axis {
    pub low: f64,
    pub high: f64,
    step: f64,
    /// Labels are numbers times ten to this power.
    pub power: i32,
    /// The pixels of low and high.
    pub pixels: (f64, f64),
}

/// 1, 2 or 5 times a power of ten, so that a range has some `parts` of it.
fn step_of(range: f64, parts: f64) -> f64 {
    let rough = range / parts;
    let ten = 10f64.powi(rough.log10().floor() as i32);
    let factor = [1.0, 2.0, 5.0, 10.0].into_iter().find(|f| f * ten >= rough).unwrap_or(10.0);
    factor * ten
}

/// Ten to a power, as it is written.
pub fn ten_to(power: i32) -> String {
    let digit = |c: char| match c {
        '-' => '⁻',
        c => ['⁰', '¹', '²', '³', '⁴', '⁵', '⁶', '⁷', '⁸', '⁹'][c.to_digit(10).unwrap_or_default() as usize],
    };
    format!("10{}", power.to_string().chars().map(digit).collect::<String>())
}

impl Axis {
    /// An axis that holds all of these numbers, with some `parts` between ticks. Numbers that are not finite are left out.
    pub fn holding(numbers: impl Iterator<Item = f64>, parts: f64, pixels: (f64, f64)) -> Axis {
        let (mut low, mut high) = (f64::INFINITY, f64::NEG_INFINITY);
        for x in numbers.filter(|x| x.is_finite()) {
            (low, high) = (low.min(x), high.max(x));
        }
        if low > high {
            (low, high) = (0.0, 1.0);
        }
        let least = (low.abs().max(high.abs()) * 1e-9).max(1e-300);
        if high - low < least {
            (low, high) = (low - least, high + least);
        }
        let step = step_of(high - low, parts);
        let (low, high) = ((low / step).floor() * step, (high / step).ceil() * step);
        let size = low.abs().max(high.abs()).log10().floor() as i32;
        Axis { low, high, step, power: if (-2..4).contains(&size) { 0 } else { size }, pixels }
    }
    pub fn at(&self, x: f64) -> f64 {
        let (from, to) = self.pixels;
        from + (x - self.low) / (self.high - self.low) * (to - from)
    }
    /// Each tick's number, as it is meant and as it is written.
    pub fn ticks(&self) -> Vec<(f64, String)> {
        let count = ((self.high - self.low) / self.step).round().clamp(0.0, 100.0) as i64;
        let first = (self.low / self.step).round();
        let unit = 10f64.powi(self.power);
        let digits = (-(self.step / unit).log10().floor()).clamp(0.0, 12.0) as usize;
        let label = |x: f64| {
            let text = format!("{:.digits$}", x / unit);
            if text.trim_start_matches('-').chars().all(|c| c == '0' || c == '.') { "0".into() } else { text.replace('-', "−") }
        };
        (0..=count).map(|k| (first + k as f64) * self.step).map(|x| (x, label(x))).collect()
    }
    /// What the axis shows, with its unit.
    pub fn named(&self, what: &str, unit: &str) -> String {
        match self.power {
            0 => format!("{what} ({unit})"),
            power => format!("{what} ({} {unit})", ten_to(power)),
        }
    }
    /// How many of its own unit a pixel is.
    pub fn per_pixel(&self) -> f64 {
        ((self.high - self.low) / (self.pixels.1 - self.pixels.0)).abs()
    }
}

/// A number in a few digits, for a label.
pub fn short(x: f64) -> String {
    let rounded: f64 = format!("{x:.5e}").parse().unwrap_or(x);
    let text = written(rounded);
    match text.split_once('e') {
        Some((digits, power)) => format!("{}·{}", digits.replace('-', "−"), ten_to(power.parse().unwrap_or_default())),
        None => text.replace('-', "−"),
    }
}

#[cfg(test)]
mod tests {
    use super::*;

    #[test]
    fn an_axis_ends_at_ticks_that_are_round() {
        let axis = Axis::holding([0.0005, 0.024].into_iter(), 6.0, (100.0, 600.0));
        let labels: Vec<String> = axis.ticks().into_iter().map(|(_, label)| label).collect();
        assert_eq!(labels, ["0.000", "0.005", "0.010", "0.015", "0.020", "0.025"].map(|l| if l == "0.000" { "0" } else { l }));
        assert_eq!((axis.at(0.0), axis.at(0.025)), (100.0, 600.0));
        let tiny = Axis::holding([-3e-15, 2e-15].into_iter(), 5.0, (300.0, 0.0));
        assert_eq!(tiny.named("end", "K"), "end (10⁻¹⁵ K)");
        assert!(tiny.ticks().iter().any(|(x, label)| *x == 0.0 && label == "0"));
    }

    #[test]
    fn odd_numbers_make_an_axis_too() {
        for list in [vec![], vec![f64::NAN], vec![0.0], vec![5.0, 5.0], vec![1e308, -1e308], vec![f64::MIN_POSITIVE]] {
            let axis = Axis::holding(list.into_iter(), 5.0, (0.0, 100.0));
            assert!(axis.ticks().len() < 102);
        }
    }
}
