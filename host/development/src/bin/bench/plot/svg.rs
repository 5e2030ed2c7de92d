//! A picture as SVG text, element by element. It has its own background, light or dark as the page around it.

use std::fmt::Display;

pub struct Picture {
    text: String,
}

/// Which part of a text lies at its place.
pub const START: &str = "start";
pub const MIDDLE: &str = "middle";
pub const END: &str = "end";

const STYLE: &str = "
    text { font-family: sans-serif; font-size: 13px; fill: #1f2328; }
    .title { font-size: 17px; font-weight: bold; }
    .back { fill: #ffffff; }
    .grid { stroke: #d1d9e0; }
    .ours { color: #0969da; stroke: currentColor; stroke-width: 2; fill: currentColor; }
    .packrat { color: #bc4c00; stroke: currentColor; stroke-width: 2; fill: currentColor; }
    polyline { fill: none; }
    .dashed polyline { stroke-dasharray: 7 5; }
    .dashed circle { fill: #ffffff; }
    @media (prefers-color-scheme: dark) {
        text { fill: #e6edf3; }
        .back, .dashed circle { fill: #0d1117; }
        .grid { stroke: #3d444d; }
        .ours { color: #58a6ff; }
        .packrat { color: #f0883e; }
    }
";

impl Picture {
    pub fn new(width: f64, height: f64, title: &str) -> Picture {
        let mut picture = Picture {
            text: String::new(),
        };
        let size = format!("width=\"{width}\" height=\"{height}\"");
        let shown = format!("viewBox=\"0 0 {width} {height}\" role=\"img\"");
        picture.line(format!(
            "<svg xmlns=\"http://www.w3.org/2000/svg\" {size} {shown}>"
        ));
        picture.line(format!("<title>{title}</title>"));
        picture.line(format!("<style>{STYLE}</style>"));
        picture.line(format!("<rect class=\"back\" {size}/>"));
        picture
    }

    /// Writes text that has none of the characters <, > and &.
    pub fn write(&mut self, class: &str, (x, y): (f64, f64), anchor: &str, text: impl Display) {
        let place = format!("x=\"{x:.1}\" y=\"{y:.1}\" text-anchor=\"{anchor}\"");
        self.line(format!("<text class=\"{class}\" {place}>{text}</text>"));
    }

    /// Text that runs upward, around its middle.
    pub fn write_upward(&mut self, (x, y): (f64, f64), text: &str) {
        let turned = format!("transform=\"translate({x:.1} {y:.1}) rotate(-90)\"");
        self.line(format!(
            "<text {turned} text-anchor=\"{MIDDLE}\">{text}</text>"
        ));
    }

    pub fn grid_line(&mut self, (x1, y1): (f64, f64), (x2, y2): (f64, f64)) {
        let places = format!("x1=\"{x1:.1}\" y1=\"{y1:.1}\" x2=\"{x2:.1}\" y2=\"{y2:.1}\"");
        self.line(format!("<line class=\"grid\" {places}/>"));
    }

    /// A part with nothing but the background.
    pub fn clear(&mut self, (x, y): (f64, f64), (width, height): (f64, f64)) {
        let place = format!("x=\"{x:.1}\" y=\"{y:.1}\"");
        let size = format!("width=\"{width:.1}\" height=\"{height:.1}\"");
        self.line(format!("<rect class=\"back\" {place} {size}/>"));
    }

    /// A line through points, each with a circle.
    pub fn curve(&mut self, class: &str, points: &[(f64, f64)]) {
        let places: Vec<String> = points
            .iter()
            .map(|(x, y)| format!("{x:.1},{y:.1}"))
            .collect();
        self.line(format!("<g class=\"{class}\">"));
        self.line(format!("<polyline points=\"{}\"/>", places.join(" ")));
        for (x, y) in points {
            self.line(format!("<circle cx=\"{x:.1}\" cy=\"{y:.1}\" r=\"4\"/>"));
        }
        self.line("</g>".to_string());
    }

    pub fn finished(mut self) -> String {
        self.line("</svg>".to_string());
        self.text
    }

    fn line(&mut self, line: String) {
        self.text += &line;
        self.text += "\n";
    }
}
