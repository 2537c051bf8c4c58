//! Energies over density, with the band of the two ends drawn magnified.
use crate::input::numbers::written;
use crate::plot::axis::{Axis, short, ten_to};
use crate::plot::chart::{Panel, area, curve, runs};
use crate::plot::legend::Legend;
use crate::plot::series::{Data, Point, Quantity, Series};
use crate::plot::svg::{Svg, colour};

pub const SIZE: (f64, f64) = (1000.0, 640.0);
const LEFT: f64 = 100.0;
const RIGHT: f64 = 730.0;
const TOP: f64 = 84.0;
const BOTTOM: f64 = 570.0;

/// How much wider than it is a band is drawn: 1, 2 or 5 times a power of ten, by which the widest takes at most an eighth of the height.
pub fn magnified(widest: f64, height: f64) -> f64 {
    let most = height / 8.0 / widest;
    if !(widest > 0.0 && most.is_finite() && most > 0.0) {
        return 1.0;
    }
    let ten = 10f64.powi(most.log10().floor() as i32);
    [5.0, 2.0, 1.0].into_iter().find(|f| f * ten <= most).unwrap_or(1.0) * ten
}

/// A factor as it is written.
pub fn factor(times: f64) -> String {
    let power = times.log10().floor() as i32;
    if (0..4).contains(&power) {
        return short(times);
    }
    let digits = times / 10f64.powi(power);
    if (digits - 1.0).abs() < 1e-9 { ten_to(power) } else { format!("{}·{}", short(digits), ten_to(power)) }
}

/// The factor of each contribution: the one that is asked for, or one by which its own band can be seen.
fn factors(data: &Data, height: f64, asked: Option<f64>) -> Vec<f64> {
    let widest = |part: usize| {
        let of = data.series.iter().filter(|s| s.part == part).flat_map(|s| s.points.iter().flatten());
        of.map(|p| p.high() - p.low()).fold(0.0, f64::max)
    };
    (0..data.parts.len()).map(|part| asked.unwrap_or_else(|| magnified(widest(part), height))).collect()
}

/// Where an end is drawn that is so many times as far from its energy.
fn stretched(p: &Point, end: f64, times: f64) -> f64 {
    p.y + times * (end - p.y)
}

/// The bands of a series: as they are, which no eye can tell from the curve, and magnified.
fn bands(svg: &mut Svg, panel: &Panel, s: &Series, times: f64) {
    for run in runs(&s.points) {
        svg.polygon(
            "magnified",
            colour(s.temperature),
            &area(panel, &run, |p| stretched(p, p.low(), times), |p| stretched(p, p.high(), times)),
        );
        svg.polygon("band", colour(s.temperature), &area(panel, &run, |p| p.low(), |p| p.high()));
    }
}

pub fn draw(title: (&str, &str), data: &Data, magnify: Option<f64>) -> String {
    let mut svg = Svg::default();
    let x = Axis::holding(data.points().map(|p| p.x).chain([0.0]), 6.0, (LEFT, RIGHT));
    let plain = Axis::holding(data.points().map(|p| p.y).chain([0.0]), 8.0, (BOTTOM, TOP));
    let times = factors(data, plain.high - plain.low, magnify);
    // the magnified band stays within the frame
    let ends = data.series.iter().flat_map(|s| {
        s.points.iter().flatten().flat_map(|p| [stretched(p, p.low(), times[s.part]), stretched(p, p.high(), times[s.part])])
    });
    let y = Axis::holding(ends.chain([0.0]), 8.0, (BOTTOM, TOP));
    let (name_x, name_y) = (x.named("density", "1/Å³"), y.named(data.quantity.named().0, data.quantity.named().1));
    let panel = Panel { x, y };
    svg.text("title", (LEFT, 34.0), title.0);
    svg.text("under", (LEFT, 58.0), title.1);
    panel.frame(&mut svg, (&name_x, &name_y), true);
    if data.quantity == Quantity::Energies {
        data.series.iter().for_each(|s| bands(&mut svg, &panel, s, times[s.part]));
    }
    data.series.iter().for_each(|s| curve(&mut svg, &panel, s, |p| p.y));
    let mut legend = Legend { svg: &mut svg, at: (RIGHT + 22.0, TOP + 12.0) };
    legend.of(data);
    if data.quantity == Quantity::Pressure {
        legend.remark("Slopes have no two ends: no band is drawn.");
    }
    for (part, times) in data.parts.iter().zip(&times).filter(|_| data.quantity == Quantity::Energies) {
        legend.band(&format!("band of the two ends, {part}: drawn {} times its width", factor(*times)));
        legend.svg.raw(&format!("<metadata class=\"magnification\" data-part=\"{part}\" data-times=\"{}\"/>", written(*times)));
    }
    svg.whole(SIZE.0, SIZE.1, title.0)
}
