//! One panel of the plot: costs by an input's size, a line for each work and each maker.

use super::axis::{marks, Axis};
use super::shapes::{mark, path, rule, text, title, upright, Point};
use crate::measure::Row;

/// The top and the bottom of a panel, and its width.
const TOP: f64 = 54.0;
const BOTTOM: f64 = 350.0;
const WIDTH: f64 = 470.0;

/// The space between the axes and the first and last value.
const MARGIN: f64 = 16.0;

/// The colour of what stands for no work.
const INK: &str = "#333333";

/// A work: its name in the lines measured, and its colour.
pub struct Work {
    pub name: &'static str,
    pub colour: &'static str,
}

/// Who does the work: name, dashes, whether marks are filled, and the cost.
pub struct Maker {
    pub name: &'static str,
    pub dashes: &'static str,
    pub filled: bool,
    pub cost: fn(&Row) -> Option<f64>,
}

/// A panel.
pub struct Panel<'a> {
    pub left: f64,
    pub title: &'static str,
    pub across: &'static str,
    pub up: &'static str,
    pub logarithmic: bool,
    /// How a value of the horizontal axis is written.
    pub written: fn(usize) -> String,
    pub rows: Vec<&'a Row>,
    pub works: &'static [Work],
    pub makers: &'static [Maker],
}

impl Panel<'_> {
    /// The values of the horizontal axis, rising.
    fn values(&self) -> Vec<usize> {
        let mut values: Vec<usize> = self.rows.iter().filter_map(|row| row.at).collect();
        values.sort_unstable();
        values.dedup();
        values
    }

    fn horizontal(&self, values: &[usize]) -> Axis {
        Axis {
            low: values[0] as f64,
            high: values[values.len() - 1] as f64,
            from: self.left + MARGIN,
            to: self.left + WIDTH - MARGIN,
            logarithmic: self.logarithmic,
        }
    }

    /// The marks of the vertical axis, around all costs.
    fn marks(&self) -> Vec<f64> {
        let (mut low, mut high) = (f64::INFINITY, 0f64);
        for maker in self.makers {
            for cost in self.rows.iter().filter_map(|row| (maker.cost)(row)) {
                (low, high) = (low.min(cost), high.max(cost));
            }
        }
        marks(low, high)
    }

    fn vertical(&self, marks: &[f64]) -> Axis {
        Axis {
            low: marks[0],
            high: marks[marks.len() - 1],
            from: BOTTOM,
            to: TOP,
            logarithmic: true,
        }
    }

    /// Title, grid, axes and their labels.
    fn frame(&self, x: &Axis, y: &Axis) -> String {
        let (left, right) = (self.left, self.left + WIDTH);
        let mut svg = title((left, TOP - 20.0), self.title);
        for value in self.marks() {
            let place = y.place(value);
            svg += &rule((left, place), (right, place), "grid");
            svg += &text((left - 8.0, place + 4.0), "end", &value.to_string());
        }
        for value in self.values() {
            let place = x.place(value as f64);
            svg += &rule((place, BOTTOM), (place, BOTTOM + 5.0), "axis");
            svg += &text((place, BOTTOM + 20.0), "middle", &(self.written)(value));
        }
        svg += &rule((left, BOTTOM), (right, BOTTOM), "axis");
        svg += &rule((left, TOP), (left, BOTTOM), "axis");
        svg += &text(((left + right) / 2.0, BOTTOM + 42.0), "middle", self.across);
        svg + &upright((left - 52.0, (TOP + BOTTOM) / 2.0), self.up)
    }

    /// The line of a work and a maker.
    fn line(&self, work: &Work, maker: &Maker, x: &Axis, y: &Axis) -> String {
        let place = |row: &&Row| -> Option<Point> {
            Some((x.place(row.at? as f64), y.place((maker.cost)(row)?)))
        };
        let rows = self.rows.iter().filter(|row| row.work == work.name);
        let points: Vec<Point> = rows.filter_map(place).collect();
        let mut svg = path(&points, work.colour, 2.0, maker.dashes);
        for point in points {
            svg += &mark(point, work.colour, maker.filled);
        }
        svg
    }

    /// The legend: a colour for each work, a stroke for each maker.
    fn legend(&self) -> String {
        let mut svg = String::new();
        let at = |index: usize, y: f64| (self.left + 120.0 * index as f64, y);
        let sample = |(x, y): Point| [(x, y - 4.0), (x + 30.0, y - 4.0)];
        for (index, work) in self.works.iter().enumerate() {
            let (x, y) = at(index, BOTTOM + 74.0);
            svg += &path(&sample((x, y)), work.colour, 5.0, "none");
            svg += &text((x + 38.0, y), "start", work.name);
        }
        for (index, maker) in self.makers.iter().enumerate() {
            let (x, y) = at(index, BOTTOM + 98.0);
            svg += &path(&sample((x, y)), INK, 2.0, maker.dashes);
            svg += &mark((x + 15.0, y - 4.0), INK, maker.filled);
            svg += &text((x + 38.0, y), "start", maker.name);
        }
        svg
    }

    /// The whole panel; ours is drawn last.
    pub fn svg(&self) -> String {
        let x = self.horizontal(&self.values());
        let y = self.vertical(&self.marks());
        let mut svg = self.frame(&x, &y);
        for maker in self.makers.iter().rev() {
            for work in self.works {
                svg += &self.line(work, maker, &x, &y);
            }
        }
        svg + &self.legend()
    }
}
