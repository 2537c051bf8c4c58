//! How far the two ends lie from each energy, over density: a panel for each contribution.
use crate::plot::axis::Axis;
use crate::plot::chart::{Panel, area, numbers, runs};
use crate::plot::isotherm::factor;
use crate::plot::legend::Legend;
use crate::plot::series::{Data, Point, Series};
use crate::plot::svg::{Svg, colour, dash};

const LEFT: f64 = 100.0;
const RIGHT: f64 = 730.0;
const TOP: f64 = 84.0;
const EACH: f64 = 230.0;
const BETWEEN: f64 = 34.0;

/// Both ends of a series as areas, lines and marks about zero.
fn ends(svg: &mut Svg, panel: &Panel, s: &Series) {
    let ink = colour(s.temperature);
    for run in runs(&s.points) {
        svg.polygon("magnified", ink, &area(panel, &run, |p| p.low() - p.y, |p| p.high() - p.y));
        for end in [|p: &Point| p.low() - p.y, |p: &Point| p.high() - p.y] {
            svg.polyline(ink, dash(s.part), &run.iter().map(|p| panel.spot(p.x, end(p))).collect::<Vec<_>>());
        }
    }
    for p in s.points.iter().flatten() {
        for (which, end) in [("low", p.low()), ("high", p.high())] {
            let at = panel.spot(p.x, end - p.y);
            let data = [numbers(s, p), vec![("end", which.into())]].concat();
            svg.mark("mark", s.temperature, ink, at, &data);
            if s.spent.is_some() {
                svg.mark("spent", 0, "#111", at, &[]);
            }
        }
    }
}

fn panel(data: &Data, part: usize, top: f64) -> Panel {
    let of = || data.series.iter().filter(|s| s.part == part).flat_map(|s| s.points.iter().flatten());
    let x = Axis::holding(data.points().map(|p| p.x), 6.0, (LEFT, RIGHT));
    Panel { x, y: Axis::holding(of().flat_map(|p| [p.low() - p.y, p.high() - p.y, 0.0]), 5.0, (top + EACH, top)) }
}

/// How many times the axis is stretched against one, as high, that holds the energies.
fn stretch(data: &Data, part: usize, panel: &Panel) -> f64 {
    let of = data.series.iter().filter(|s| s.part == part).flat_map(|s| s.points.iter().flatten());
    let own = Axis::holding(of.flat_map(|p| [p.y, 0.0]), 5.0, panel.y.pixels);
    own.per_pixel() / panel.y.per_pixel()
}

pub fn draw(title: (&str, &str), data: &Data) -> String {
    let mut svg = Svg::default();
    svg.text("title", (LEFT, 34.0), title.0);
    svg.text("under", (LEFT, 58.0), title.1);
    let mut notes = vec![];
    for (part, label) in data.parts.iter().enumerate() {
        let panel = panel(data, part, TOP + part as f64 * (EACH + BETWEEN));
        let (name_x, name_y) = (panel.x.named("density", "1/Å³"), panel.y.named("end minus energy", "1/Å³"));
        svg.raw(&format!("<g class=\"panel\" data-part=\"{label}\">"));
        panel.frame(&mut svg, (&name_x, &name_y), part + 1 == data.parts.len());
        data.series.iter().filter(|s| s.part == part).for_each(|s| ends(&mut svg, &panel, s));
        svg.text("", (LEFT + 12.0, panel.y.pixels.1 + 20.0), label);
        svg.raw("</g>");
        let times: f64 = format!("{:.0e}", stretch(data, part, &panel)).parse().unwrap_or(1.0);
        notes.push(format!("{label}: magnified {} times against an axis of the energy itself", factor(times)));
    }
    let mut legend = Legend { svg: &mut svg, at: (RIGHT + 22.0, TOP + 12.0) };
    legend.temperatures(data);
    legend.band("from the low to the high end");
    legend.marks(data);
    notes.iter().for_each(|note| legend.remark(note));
    let height = (TOP + data.parts.len() as f64 * (EACH + BETWEEN) + 40.0).max(legend.at.1 + 10.0);
    svg.whole(1000.0, height, title.0)
}
