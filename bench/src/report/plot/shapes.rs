//! The shapes of a drawing, as SVG.

/// A point: across, down.
pub type Point = (f64, f64);

/// The radius of a mark.
const MARK: f64 = 3.5;

/// A text at a point; the anchor says which part of it lies there.
pub fn text((x, y): Point, anchor: &str, words: &str) -> String {
    format!("<text x=\"{x:.1}\" y=\"{y:.1}\" text-anchor=\"{anchor}\">{words}</text>\n")
}

/// A title that starts at a point.
pub fn title((x, y): Point, words: &str) -> String {
    format!("<text x=\"{x:.1}\" y=\"{y:.1}\" class=\"title\">{words}</text>\n")
}

/// A text around a point that is read from below.
pub fn upright((x, y): Point, words: &str) -> String {
    let turned = format!("transform=\"rotate(-90 {x:.1} {y:.1})\"");
    format!("<text x=\"{x:.1}\" y=\"{y:.1}\" text-anchor=\"middle\" {turned}>{words}</text>\n")
}

/// A straight line of a class.
pub fn rule((x1, y1): Point, (x2, y2): Point, class: &str) -> String {
    format!(
        "<line x1=\"{x1:.1}\" y1=\"{y1:.1}\" x2=\"{x2:.1}\" y2=\"{y2:.1}\" class=\"{class}\"/>\n"
    )
}

/// A line through points, solid or dashed.
pub fn path(points: &[Point], colour: &str, width: f64, dashes: &str) -> String {
    let places: Vec<String> = points
        .iter()
        .map(|(x, y)| format!("{x:.1},{y:.1}"))
        .collect();
    let stroke =
        format!("stroke=\"{colour}\" stroke-width=\"{width}\" stroke-dasharray=\"{dashes}\"");
    format!(
        "<polyline points=\"{}\" fill=\"none\" {stroke}/>\n",
        places.join(" ")
    )
}

/// A mark on a line, filled or hollow.
pub fn mark((x, y): Point, colour: &str, filled: bool) -> String {
    let fill = if filled { colour } else { "#ffffff" };
    let stroke = format!("stroke=\"{colour}\" stroke-width=\"1.5\"");
    format!("<circle cx=\"{x:.1}\" cy=\"{y:.1}\" r=\"{MARK}\" fill=\"{fill}\" {stroke}/>\n")
}
