//! A chart of lines with points: titles, axes, legend and curves.

use super::axis::Axis;
use super::svg::{Picture, END, MIDDLE, START};
use bannelgo_development::figures::grouped;

pub struct Chart {
    pub title: &'static str,
    pub subtitle: String,
    pub x_label: &'static str,
    pub y_label: &'static str,
    pub series: Vec<Series>,
}

pub struct Series {
    pub label: String,
    /// The class in the style that gives the colour.
    pub class: &'static str,
    pub dashed: bool,
    pub points: Vec<(f64, f64)>,
}

/// The size of the picture, and where in it the axes lie.
const WIDTH: f64 = 760.0;
const HEIGHT: f64 = 480.0;
const LEFT: f64 = 80.0;
const RIGHT: f64 = 725.0;
const TOP: f64 = 80.0;
const BOTTOM: f64 = 415.0;

impl Chart {
    pub fn svg(&self) -> String {
        let points = || self.series.iter().flat_map(|series| &series.points);
        let x = Axis::covering(points().map(|point| point.0), LEFT, RIGHT);
        let y = Axis::covering(points().map(|point| point.1), BOTTOM, TOP);
        let mut picture = Picture::new(WIDTH, HEIGHT, self.title);
        self.draw_titles(&mut picture);
        draw_axes(&mut picture, &x, &y);
        for series in &self.series {
            let place = |&(size, time): &(f64, f64)| (x.place(size), y.place(time));
            let places: Vec<(f64, f64)> = series.points.iter().map(place).collect();
            picture.curve(&series.classes(), &places);
        }
        self.draw_legend(&mut picture);
        picture.finished()
    }

    fn draw_titles(&self, picture: &mut Picture) {
        let middle = (LEFT + RIGHT) / 2.0;
        picture.write("title", (LEFT, 30.0), START, self.title);
        picture.write("subtitle", (LEFT, 54.0), START, &self.subtitle);
        picture.write("label", (middle, HEIGHT - 18.0), MIDDLE, self.x_label);
        picture.write_upward((22.0, (TOP + BOTTOM) / 2.0), self.y_label);
    }

    /// At the left above, where no curve comes: times grow with the size.
    fn draw_legend(&self, picture: &mut Picture) {
        let height = 12.0 + 22.0 * self.series.len() as f64;
        picture.clear((LEFT + 6.0, TOP + 5.0), (365.0, height));
        for (row, series) in self.series.iter().enumerate() {
            let y = TOP + 22.0 + 22.0 * row as f64;
            let (left, middle, right) = (LEFT + 16.0, LEFT + 38.0, LEFT + 60.0);
            picture.curve(&series.classes(), &[(left, y), (middle, y), (right, y)]);
            picture.write("label", (right + 12.0, y + 4.5), START, &series.label);
        }
    }
}

impl Series {
    fn classes(&self) -> String {
        match self.dashed {
            true => format!("{} dashed", self.class),
            false => self.class.to_string(),
        }
    }
}

/// A line with its value at every step of both axes.
fn draw_axes(picture: &mut Picture, x: &Axis, y: &Axis) {
    for value in x.steps() {
        let (at, name) = (x.place(value), grouped(value as u64));
        picture.grid_line((at, TOP), (at, BOTTOM));
        picture.write("value", (at, BOTTOM + 20.0), MIDDLE, name);
    }
    for value in y.steps() {
        let (at, name) = (y.place(value), grouped(value as u64));
        picture.grid_line((LEFT, at), (RIGHT, at));
        picture.write("value", (LEFT - 10.0, at + 4.5), END, name);
    }
}
