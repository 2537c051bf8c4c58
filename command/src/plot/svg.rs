//! A picture as text: lines, areas, marks and words in pixels, the origin at the upper left.
use crate::input::numbers::written;
use std::fmt::Write;

#[derive(Debug, Clone, Default)]
pub struct Svg {
    body: String,
}

/// A text as it may stand in an element or an attribute.
pub fn escaped(text: &str) -> String {
    let mut out = String::new();
    for c in text.chars() {
        match c {
            '&' => out.push_str("&amp;"),
            '<' => out.push_str("&lt;"),
            '>' => out.push_str("&gt;"),
            '"' => out.push_str("&quot;"),
            // XML has no other control characters
            c if c.is_control() => out.push(' '),
            c => out.push(c),
        }
    }
    out
}

/// Pixels, to a hundredth.
pub fn px(x: f64) -> String {
    let rounded = (x * 100.0).round() / 100.0;
    written(if rounded == 0.0 { 0.0 } else { rounded })
}

pub type Spot = (f64, f64);

fn points(list: &[Spot]) -> String {
    list.iter().map(|(x, y)| format!("{},{}", px(*x), px(*y))).collect::<Vec<_>>().join(" ")
}

/// The outline of a mark, about the origin.
pub fn shape(which: usize) -> &'static str {
    [
        "M-3.2 0a3.2 3.2 0 1 0 6.4 0a3.2 3.2 0 1 0 -6.4 0z",
        "M-2.9 -2.9h5.8v5.8h-5.8z",
        "M0 -4l3.7 6.5h-7.4z",
        "M0 -4.2l4.2 4.2l-4.2 4.2l-4.2 -4.2z",
        "M0 4l3.7 -6.5h-7.4z",
        "M-4 -1.3h2.7v-2.7h2.6v2.7h2.7v2.6h-2.7v2.7h-2.6v-2.7h-2.7z",
        "M-4.2 -1.7h8.4v3.4h-8.4z",
        "M-1.7 -4.2h3.4v8.4h-3.4z",
    ][which % 8]
}

/// The cross over the mark of a spent search.
pub const CROSS: &str = "M-5.5 -5.5l11 11M-5.5 5.5l11 -11";

/// Strokes that tell lines apart without colour.
pub fn dash(which: usize) -> &'static str {
    ["", "8 4", "2 3", "10 3 2 3"][which % 4]
}

/// Colours that differ in lightness too.
pub fn colour(which: usize) -> &'static str {
    ["#12355b", "#c2571a", "#2d7d46", "#8a4fa3", "#3f8fb0", "#7a1f2b", "#8a7a1f", "#555555"][which % 8]
}

impl Svg {
    pub fn raw(&mut self, element: &str) {
        self.body.push_str(element);
        self.body.push('\n');
    }
    pub fn line(&mut self, class: &str, from: Spot, to: Spot) {
        let [a, b, c, d] = [from.0, from.1, to.0, to.1].map(px);
        self.raw(&format!("<line class=\"{class}\" x1=\"{a}\" y1=\"{b}\" x2=\"{c}\" y2=\"{d}\"/>"));
    }
    pub fn rectangle(&mut self, class: &str, corner: Spot, size: Spot) {
        let [a, b, c, d] = [corner.0, corner.1, size.0, size.1].map(px);
        self.raw(&format!("<rect class=\"{class}\" x=\"{a}\" y=\"{b}\" width=\"{c}\" height=\"{d}\"/>"));
    }
    pub fn polyline(&mut self, colour: &str, dash: &str, list: &[Spot]) {
        self.raw(&format!("<polyline class=\"curve\" stroke=\"{colour}\" stroke-dasharray=\"{dash}\" points=\"{}\"/>", points(list)));
    }
    pub fn polygon(&mut self, class: &str, colour: &str, list: &[Spot]) {
        self.raw(&format!("<polygon class=\"{class}\" fill=\"{colour}\" points=\"{}\"/>", points(list)));
    }
    /// A mark with the numbers that it stands for.
    pub fn mark(&mut self, class: &str, which: usize, colour: &str, at: Spot, data: &[(&str, String)]) {
        let mut held = String::new();
        for (key, value) in data {
            // writing to a string does not fail
            let _ = write!(held, " data-{key}=\"{}\"", escaped(value));
        }
        let d = if class == "spent" { CROSS } else { shape(which) };
        let (x, y) = (px(at.0), px(at.1));
        self.raw(&format!("<path class=\"{class}\" stroke=\"{colour}\" transform=\"translate({x} {y})\" d=\"{d}\"{held}/>"));
    }
    pub fn text(&mut self, class: &str, at: Spot, text: &str) {
        self.raw(&format!("<text class=\"{class}\" x=\"{}\" y=\"{}\">{}</text>", px(at.0), px(at.1), escaped(text)));
    }
    /// A text that runs upwards.
    pub fn upward(&mut self, class: &str, at: Spot, text: &str) {
        let (x, y) = (px(at.0), px(at.1));
        self.raw(&format!("<text class=\"{class}\" transform=\"translate({x} {y}) rotate(-90)\">{}</text>", escaped(text)));
    }
    /// The whole picture.
    pub fn whole(&self, width: f64, height: f64, title: &str) -> String {
        let (w, h) = (px(width), px(height));
        format!(
            "<?xml version=\"1.0\" encoding=\"UTF-8\"?>\n<svg xmlns=\"http://www.w3.org/2000/svg\" width=\"{w}\" height=\"{h}\" viewBox=\"0 0 {w} {h}\">\n<title>{}</title>\n<style>{STYLE}</style>\n<rect width=\"{w}\" height=\"{h}\" fill=\"#fff\"/>\n{}</svg>\n",
            escaped(title),
            self.body
        )
    }
}

const STYLE: &str = "
text { font-family: 'DejaVu Sans', 'Liberation Sans', Arial, sans-serif; font-size: 13px; fill: #111 }
.title { font-size: 18px; font-weight: bold }
.under { fill: #444 }
.middle { text-anchor: middle }
.right { text-anchor: end }
.name { text-anchor: middle; font-size: 14px }
.frame { fill: none; stroke: #111; stroke-width: 1 }
.grid { stroke: #ddd; stroke-width: 1 }
.zero { stroke: #888; stroke-width: 1 }
.tick { stroke: #111; stroke-width: 1 }
.curve { fill: none; stroke-width: 1.4 }
.mark { fill: #fff; stroke-width: 1.4 }
.spent { fill: none; stroke: #111; stroke-width: 1.8 }
.band { stroke: none }
.magnified { fill-opacity: 0.22; stroke: #555; stroke-width: 0.5 }
.bar { stroke: #111; stroke-width: 1.4 }
.layer { fill: #f2f2f2; stroke: #111; stroke-width: 1.2 }
";

#[cfg(test)]
mod tests {
    use super::*;

    #[test]
    fn what_a_file_names_cannot_leave_its_text() {
        assert_eq!(escaped("<a b=\"c\"> & \u{1}"), "&lt;a b=&quot;c&quot;&gt; &amp;  ");
        assert_eq!((px(-0.001), px(1.005), px(12.346)), ("0".into(), "1".into(), "12.35".into()));
    }
}
