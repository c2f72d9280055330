//! Axes: from a value to a place on the drawing, and the values that are marked.

/// An axis from one place of the drawing to another.
pub struct Axis {
    pub low: f64,
    pub high: f64,
    pub from: f64,
    pub to: f64,
    pub logarithmic: bool,
}

impl Axis {
    /// The place of a value.
    pub fn place(&self, value: f64) -> f64 {
        let scale = |value: f64| if self.logarithmic { value.ln() } else { value };
        let (low, high) = (scale(self.low), scale(self.high));
        self.from + (scale(value) - low) / (high - low) * (self.to - self.from)
    }
}

/// The numbers 1, 2 and 5 times a power of ten, from the last at or below `low` to the first at or above `high`.
pub fn marks(low: f64, high: f64) -> Vec<f64> {
    let mut marks = Vec::new();
    for power in -3..9 {
        for digit in ["1", "2", "5"] {
            let mark: f64 = format!("{digit}e{power}").parse().expect("a number");
            if mark <= low {
                marks.clear();
            }
            marks.push(mark);
            if mark >= high {
                return marks;
            }
        }
    }
    marks
}
