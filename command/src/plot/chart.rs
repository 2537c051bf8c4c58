//! A panel of a picture: frame, ticks, names, curves, bands and marks.
use crate::input::numbers::written;
use crate::plot::axis::Axis;
use crate::plot::series::{Point, Series};
use crate::plot::svg::{Spot, Svg, colour, dash};

pub struct Panel {
    pub x: Axis,
    pub y: Axis,
}

impl Panel {
    pub fn spot(&self, x: f64, y: f64) -> Spot {
        (self.x.at(x), self.y.at(y))
    }
    /// Frame, grid and ticks; the x-axis' numbers only where they are wanted.
    pub fn frame(&self, svg: &mut Svg, names: (&str, &str), below: bool) {
        let ((left, right), (bottom, top)) = (self.x.pixels, self.y.pixels);
        for (value, label) in self.x.ticks() {
            let x = self.x.at(value);
            svg.line("grid", (x, bottom), (x, top));
            svg.raw(&tick("x", value, x));
            svg.line("tick", (x, bottom), (x, bottom + 5.0));
            if below {
                svg.text("middle", (x, bottom + 20.0), &label);
            }
        }
        for (value, label) in self.y.ticks() {
            let y = self.y.at(value);
            svg.line(if value == 0.0 { "zero" } else { "grid" }, (left, y), (right, y));
            svg.raw(&tick("y", value, y));
            svg.line("tick", (left - 5.0, y), (left, y));
            svg.text("right", (left - 9.0, y + 4.5), &label);
        }
        svg.rectangle("frame", (left, top), (right - left, bottom - top));
        if below {
            svg.text("name", ((left + right) / 2.0, bottom + 42.0), names.0);
        }
        svg.upward("name", (left - 62.0, (bottom + top) / 2.0), names.1);
    }
    /// Frame, grid and ticks of the x-axis alone.
    pub fn across(&self, svg: &mut Svg, name: &str) {
        let ((left, right), (bottom, top)) = (self.x.pixels, self.y.pixels);
        for (value, label) in self.x.ticks() {
            let x = self.x.at(value);
            svg.line(if value == 0.0 { "zero" } else { "grid" }, (x, bottom), (x, top));
            svg.raw(&tick("x", value, x));
            svg.line("tick", (x, bottom), (x, bottom + 5.0));
            svg.text("middle", (x, bottom + 20.0), &label);
        }
        svg.rectangle("frame", (left, top), (right - left, bottom - top));
        svg.text("name", ((left + right) / 2.0, bottom + 42.0), name);
    }
}

/// A tick's number beside its pixel, for whoever reads marks back.
fn tick(axis: &str, value: f64, pixel: f64) -> String {
    format!("<metadata class=\"tick-{axis}\" data-value=\"{}\" data-pixel=\"{}\"/>", written(value), written(pixel))
}

/// Runs of points that no refused state interrupts.
pub fn runs(points: &[Option<Point>]) -> impl Iterator<Item = Vec<&Point>> {
    points.split(|p| p.is_none()).map(|run| run.iter().flatten().collect::<Vec<_>>()).filter(|run| !run.is_empty())
}

/// The area between two heights over a run.
pub fn area(panel: &Panel, run: &[&Point], low: impl Fn(&Point) -> f64, high: impl Fn(&Point) -> f64) -> Vec<Spot> {
    let there = run.iter().map(|p| panel.spot(p.x, high(p)));
    let back = run.iter().rev().map(|p| panel.spot(p.x, low(p)));
    there.chain(back).collect()
}

/// The numbers that a mark stands for.
pub fn numbers(series: &Series, p: &Point) -> Vec<(&'static str, String)> {
    let mut data = vec![("series", series.name.clone())];
    data.extend([("x", p.x), ("y", p.y)].map(|(key, x)| (key, written(x))));
    if let Some(ends) = p.ends {
        data.extend([("low", ends.low), ("high", ends.high)].map(|(key, x)| (key, written(x))));
    }
    if let Some(spent) = &series.spent {
        data.push(("spent", spent.clone()));
    }
    data
}

/// A curve with its marks, heights by a function of a point.
pub fn curve(svg: &mut Svg, panel: &Panel, series: &Series, height: impl Fn(&Point) -> f64) {
    let ink = colour(series.temperature);
    for run in runs(&series.points) {
        svg.polyline(ink, dash(series.part), &run.iter().map(|p| panel.spot(p.x, height(p))).collect::<Vec<_>>());
    }
    for p in series.points.iter().flatten() {
        let at = panel.spot(p.x, height(p));
        svg.mark("mark", series.temperature, ink, at, &numbers(series, p));
        if series.spent.is_some() {
            svg.mark("spent", 0, "#111", at, &[]);
        }
    }
}
