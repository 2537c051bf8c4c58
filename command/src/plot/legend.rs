//! What the signs of a picture mean, at its right.
use crate::plot::series::Data;
use crate::plot::svg::{Spot, Svg, colour, dash};

const ROW: f64 = 21.0;

/// The most characters of a line of the legend.
const MOST: usize = 27;

/// What the cross over a mark says.
pub const SPENT: &str = "a radius search was spent: 19 evaluations, the last tested value not below 10⁻¹² in size";

/// A text in lines of at most so many characters, parted at blanks.
pub fn lines(text: &str, most: usize) -> Vec<String> {
    let mut out: Vec<String> = vec![];
    for word in text.split_whitespace() {
        match out.last_mut() {
            Some(line) if line.chars().count() + 1 + word.chars().count() <= most => {
                line.push(' ');
                line.push_str(word);
            }
            _ => out.push(word.into()),
        }
    }
    out
}

pub struct Legend<'a> {
    pub svg: &'a mut Svg,
    pub at: Spot,
}

impl Legend<'_> {
    fn words(&mut self, text: &str) {
        for line in lines(text, MOST) {
            self.svg.text("under", (self.at.0 + 34.0, self.at.1 + 4.5), &line);
            self.at.1 += 17.0;
        }
        self.at.1 += ROW - 17.0;
    }
    pub fn temperature(&mut self, which: usize, text: &str) {
        self.svg.mark("mark", which, colour(which), (self.at.0 + 14.0, self.at.1), &[]);
        self.words(text);
    }
    pub fn part(&mut self, which: usize, text: &str) {
        let (x, y) = self.at;
        self.svg.polyline("#111", dash(which), &[(x, y), (x + 28.0, y)]);
        self.words(text);
    }
    pub fn band(&mut self, text: &str) {
        let (x, y) = self.at;
        self.svg.polygon("magnified", "#555", &[(x, y - 6.0), (x + 28.0, y - 6.0), (x + 28.0, y + 6.0), (x, y + 6.0)]);
        self.words(text);
    }
    pub fn bar(&mut self, text: &str) {
        let (x, y) = self.at;
        self.svg.line("bar", (x, y), (x + 28.0, y));
        [x, x + 28.0].into_iter().for_each(|end| self.svg.line("bar", (end, y - 6.0), (end, y + 6.0)));
        self.words(text);
    }
    pub fn spent(&mut self, text: &str) {
        self.svg.mark("spent", 0, "#111", (self.at.0 + 14.0, self.at.1), &[]);
        self.words(text);
    }
    pub fn remark(&mut self, text: &str) {
        self.words(text);
    }
    pub fn gap(&mut self) {
        self.at.1 += 8.0;
    }
    pub fn temperatures(&mut self, data: &Data) {
        data.temperatures.iter().enumerate().for_each(|(at, text)| self.temperature(at, text));
        self.gap();
    }
    /// Spent searches and refused states.
    pub fn marks(&mut self, data: &Data) {
        if data.series.iter().any(|s| s.spent.is_some()) {
            self.spent(SPENT);
        }
        if data.refused > 0 {
            self.remark(&format!("{} of {} states refused, left out", data.refused, data.states));
        }
    }
    /// Temperatures, contributions, spent searches and refused states.
    pub fn of(&mut self, data: &Data) {
        self.temperatures(data);
        data.parts.iter().enumerate().for_each(|(at, text)| self.part(at, text));
        self.gap();
        self.marks(data);
    }
}
