//! A tank's layers from the bottom up, beside them each layer's energies with the band of the two ends drawn magnified.
use crate::commands::tank::{Tank, Worked};
use crate::input::numbers::written;
use crate::output::sheet::Cell;
use crate::plot::axis::{Axis, short};
use crate::plot::chart::Panel;
use crate::plot::isotherm::{factor, magnified};
use crate::plot::legend::{Legend, SPENT};
use crate::plot::svg::{Svg, colour};
use crate::worker::Part;

const LEFT: f64 = 60.0;
const WALL: f64 = 250.0;
const PANEL: (f64, f64) = (300.0, 730.0);
const TOP: f64 = 84.0;
const HEIGHT: f64 = 460.0;
/// The least height of a layer, so that its words can be read.
const LEAST: f64 = 13.0;

/// The height of each layer in pixels: by its volume, and no less than can be seen.
fn heights(tank: &Tank) -> Vec<f64> {
    let volumes: Vec<f64> = tank.layers.layers.iter().map(|l| l.volume.value).collect();
    let (sum, free) = (volumes.iter().sum::<f64>(), HEIGHT - LEAST * volumes.len() as f64);
    volumes.iter().map(|v| LEAST + free.max(0.0) * v / sum).collect()
}

fn layer(svg: &mut Svg, tank: &Tank, at: usize, top: f64, height: f64) {
    let l = &tank.layers.layers[at];
    svg.rectangle("layer", (LEFT, top), (WALL - LEFT, height));
    let words = format!("{} K", short(l.state.temperature));
    let density = format!("{} 1/Å³", l.state.densities.iter().map(|d| short(*d)).collect::<Vec<_>>().join(", "));
    let middle = (LEFT + WALL) / 2.0;
    if height >= 36.0 {
        svg.text("middle", (middle, top + height / 2.0 - 4.0), &words);
        svg.text("middle", (middle, top + height / 2.0 + 14.0), &density);
    } else {
        svg.text("middle", (middle, top + height / 2.0 + 4.5), &format!("{words}, {density}"));
    }
    svg.text("right", (LEFT - 8.0, top + height / 2.0 + 4.5), &(at + 1).to_string());
}

/// A contribution's mark with its magnified bar.
fn mark(svg: &mut Svg, x: &Axis, y: f64, p: &Part, (which, times): (usize, f64), layer: usize, spent: &Cell) {
    let Some(ends) = p.ends else { return };
    let of = |end: f64| x.at(p.value + times * (end - p.value));
    svg.line("bar", (of(ends.low), y), (of(ends.high), y));
    for end in [ends.low, ends.high] {
        svg.line("bar", (of(end), y - 6.0), (of(end), y + 6.0));
    }
    let mut data = vec![("series", p.label.to_string()), ("layer", (layer + 1).to_string())];
    data.extend([("x", p.value), ("low", ends.low), ("high", ends.high)].map(|(key, x)| (key, written(x))));
    svg.mark("mark", which, colour(which), (x.at(p.value), y), &data);
    if let Cell::Text(_) = spent {
        svg.mark("spent", 0, "#111", (x.at(p.value), y), &[]);
    }
}

/// The tank's own energies in words, below.
fn sums(svg: &mut Svg, tank: &Tank, worked: &Worked, top: f64) {
    let (e, b) = (&worked.energies, &worked.ends);
    let mut rows = vec![("hard sphere", e.hard_sphere, b.hard_sphere), ("dispersion", e.dispersion, b.dispersion)];
    if tank.layers.non_additive {
        rows.push(("non-additive hard sphere", e.non_additive, b.non_additive));
    }
    for (at, (name, x, ends)) in rows.into_iter().enumerate() {
        let words = format!("tank, {name}: {} K, from {} to {} K", written(x), written(ends.low), written(ends.high));
        svg.text("", (LEFT, top + 20.0 * at as f64), &words);
    }
}

fn legend(svg: &mut Svg, tank: &Tank, worked: &Worked, times: &[f64]) {
    let mut legend = Legend { svg, at: (PANEL.1 + 22.0, TOP + 12.0) };
    for (at, p) in worked.parts.first().into_iter().flatten().enumerate() {
        legend.temperature(at, p.label);
    }
    legend.gap();
    for (p, times) in worked.parts.first().into_iter().flatten().zip(times) {
        legend.bar(&format!("from the low to the high end, {}: drawn {} times its width", p.label, factor(*times)));
        legend.svg.raw(&format!("<metadata class=\"magnification\" data-part=\"{}\" data-times=\"{}\"/>", p.label, written(*times)));
    }
    if worked.spent.iter().any(|s| matches!(s, Cell::Text(_))) {
        legend.spent(SPENT);
    }
    legend.gap();
    legend.remark("A layer's height goes with its volume; layers are counted from the bottom up.");
    let volume: f64 = tank.layers.layers.iter().map(|l| l.volume.value).sum();
    legend.remark(&format!("All layers: {} Å³, {} m³.", short(volume), short(volume / 1e30)));
}

/// The factor of each contribution, as for an isotherm.
fn factors(worked: &Worked, width: f64, asked: Option<f64>) -> Vec<f64> {
    let count = worked.parts.first().map(Vec::len).unwrap_or_default();
    let widest = |k: usize| worked.parts.iter().filter_map(|list| list[k].ends).map(|e| e.high - e.low).fold(0.0, f64::max);
    (0..count).map(|k| asked.unwrap_or_else(|| magnified(widest(k), width))).collect()
}

pub fn draw(title: (&str, &str), tank: &Tank, worked: &Worked, magnify: Option<f64>) -> String {
    let mut svg = Svg::default();
    svg.text("title", (LEFT, 34.0), title.0);
    svg.text("under", (LEFT, 58.0), title.1);
    let heights = heights(tank);
    let bottom = TOP + heights.iter().sum::<f64>();
    let all = || worked.parts.iter().flatten();
    let x = Axis::holding(all().map(|p| p.value).chain([0.0]), 5.0, PANEL);
    let times = factors(worked, x.high - x.low, magnify);
    let name = x.named("energy A / (V k T) of a layer", "1/Å³");
    let panel = Panel { x, y: Axis::holding([0.0, 1.0].into_iter(), 1.0, (bottom, TOP)) };
    panel.across(&mut svg, &name);
    let mut y = bottom;
    for (at, height) in heights.iter().enumerate() {
        y -= height;
        layer(&mut svg, tank, at, y, *height);
        svg.line("grid", (PANEL.0, y), (PANEL.1, y));
        for (which, p) in worked.parts[at].iter().enumerate() {
            mark(&mut svg, &panel.x, y + height / 2.0, p, (which, times[which]), at, &worked.spent[at]);
        }
    }
    legend(&mut svg, tank, worked, &times);
    sums(&mut svg, tank, worked, bottom + 76.0);
    svg.whole(1000.0, bottom + 140.0, title.0)
}
