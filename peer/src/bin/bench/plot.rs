//! The growth plot as SVG text: two panels, two lines in each.

use std::fmt::Write;

use crate::growth::{Growth, Point};
use crate::thousands;

const WIDTH: f64 = 920.0;
const HEIGHT: f64 = 430.0;
const PANEL_WIDTH: f64 = 360.0;
const PANEL_HEIGHT: f64 = 270.0;
const PANEL_TOP: f64 = 90.0;
const PANELS_LEFT: [f64; 2] = [75.0, 530.0];
const MOST_STEPS: f64 = 6.0;

/// A line of the plot: its name, colour, dashes and where its height is.
struct Line {
    name: &'static str,
    colour: &'static str,
    dashes: &'static str,
    of: fn(&Point) -> f64,
}

const LINES: [Line; 2] = [
    Line {
        name: "proved",
        colour: "#1f5fa8",
        dashes: "none",
        of: |point| point.proved,
    },
    Line {
        name: "plain Rust",
        colour: "#c25a12",
        dashes: "7 4",
        of: |point| point.plain,
    },
];

/// The plot of both growths.
pub fn svg(growths: &[Growth; 2]) -> String {
    let mut out = format!(
        "<svg xmlns=\"http://www.w3.org/2000/svg\" viewBox=\"0 0 {WIDTH} {HEIGHT}\" \
         width=\"{WIDTH}\" height=\"{HEIGHT}\" font-family=\"Helvetica, Arial, sans-serif\" \
         font-size=\"13\" fill=\"#333\">\n\
         <title>How the free-order planner's time grows</title>\n\
         <rect width=\"{WIDTH}\" height=\"{HEIGHT}\" fill=\"#fdfdfb\"/>\n"
    );
    let middle = WIDTH / 2.0;
    let title = "The free-order planner: time of one call, median";
    text(&mut out, (middle, 32.0), "middle", 17, title);
    legend(&mut out);
    let points = growths.iter().flat_map(|growth| &growth.points);
    let times = points.flat_map(|point| LINES.map(|line| (line.of)(point)));
    let most_time = times.fold(1.0, f64::max);
    for (growth, left) in growths.iter().zip(PANELS_LEFT) {
        Panel::new(growth, left, most_time).draw(&mut out);
    }
    out + "</svg>\n"
}

fn legend(out: &mut String) {
    for (line, left) in LINES.iter().zip([340.0, 460.0]) {
        stroke(out, line, &format!("M{left} 54 h36"));
        mark(out, line, (left + 18.0, 54.0));
        text(out, (left + 44.0, 58.5), "start", 13, line.name);
    }
}

/// One growth with its axes.
struct Panel<'a> {
    growth: &'a Growth,
    left: f64,
    most_size: f64,
    /// The end of the axis of time, the same in both panels, and the step of its numbers.
    most_time: f64,
    time_step: f64,
}

impl Panel<'_> {
    fn new(growth: &Growth, left: f64, most_time: f64) -> Panel<'_> {
        let sizes = growth.points.iter().map(|point| f64::from(point.size));
        let time_step = step(most_time);
        Panel {
            growth,
            left,
            most_size: sizes.fold(0.0, f64::max),
            most_time: (most_time / time_step).ceil() * time_step,
            time_step,
        }
    }

    fn draw(&self, out: &mut String) {
        self.axes(out);
        for line in &LINES {
            let places = self.growth.points.iter().map(|point| {
                let (x, y) = (self.x(point.size.into()), self.y((line.of)(point)));
                (x, y)
            });
            let path: Vec<String> = places
                .clone()
                .map(|(x, y)| format!("{x:.1} {y:.1}"))
                .collect();
            stroke(out, line, &format!("M{}", path.join(" L")));
            places.for_each(|place| mark(out, line, place));
        }
    }

    fn axes(&self, out: &mut String) {
        let (left, right) = (self.left, self.left + PANEL_WIDTH);
        let bottom = PANEL_TOP + PANEL_HEIGHT;
        for (number, y) in numbers(self.most_time, self.time_step, |time| self.y(time)) {
            grid_line(out, &format!("M{left} {y:.1} H{right}"));
            text(out, (left - 8.0, y + 4.5), "end", 13, &number);
        }
        for (number, x) in numbers(self.most_size, self.growth.step.into(), |size| self.x(size)) {
            grid_line(out, &format!("M{x:.1} {PANEL_TOP} V{bottom}"));
            text(out, (x, bottom + 20.0), "middle", 13, &number);
        }
        let axes = format!("M{left} {PANEL_TOP} V{bottom} H{right}");
        writeln!(out, "<path d=\"{axes}\" fill=\"none\" stroke=\"#555\"/>").expect(TAKES_ALL);
        let label = format!("{} ({})", self.growth.size, self.growth.fixed);
        text(
            out,
            (left + PANEL_WIDTH / 2.0, bottom + 44.0),
            "middle",
            14,
            &label,
        );
        text(out, (left - 8.0, PANEL_TOP - 14.0), "end", 14, "µs");
    }

    fn x(&self, size: f64) -> f64 {
        self.left + PANEL_WIDTH * size / self.most_size
    }

    fn y(&self, time: f64) -> f64 {
        PANEL_TOP + PANEL_HEIGHT * (1.0 - time / self.most_time)
    }
}

/// The numbers of an axis, each with its place.
fn numbers(
    most: f64,
    step: f64,
    place: impl Fn(f64) -> f64,
) -> impl Iterator<Item = (String, f64)> {
    let count = (most / step).round() as u64;
    (0..=count).map(move |number| {
        let value = number as f64 * step;
        (thousands(value as u64), place(value))
    })
}

/// A step of 1, 2 or 5 and zeros that needs few numbers for an axis.
fn step(most: f64) -> f64 {
    let mut unit = 1.0;
    loop {
        for step in [unit, 2.0 * unit, 5.0 * unit] {
            if most / step <= MOST_STEPS {
                return step;
            }
        }
        unit *= 10.0;
    }
}

const TAKES_ALL: &str = "a string takes all";

fn text(out: &mut String, (x, y): (f64, f64), anchor: &str, size: u32, words: &str) {
    writeln!(
        out,
        "<text x=\"{x:.1}\" y=\"{y:.1}\" text-anchor=\"{anchor}\" \
         font-size=\"{size}\">{words}</text>"
    )
    .expect(TAKES_ALL);
}

fn grid_line(out: &mut String, path: &str) {
    writeln!(out, "<path d=\"{path}\" stroke=\"#e3e3de\"/>").expect(TAKES_ALL);
}

fn stroke(out: &mut String, line: &Line, path: &str) {
    writeln!(
        out,
        "<path d=\"{path}\" fill=\"none\" stroke=\"{}\" stroke-width=\"2.2\" \
         stroke-dasharray=\"{}\"/>",
        line.colour, line.dashes
    )
    .expect(TAKES_ALL);
}

fn mark(out: &mut String, line: &Line, (x, y): (f64, f64)) {
    writeln!(
        out,
        "<circle cx=\"{x:.1}\" cy=\"{y:.1}\" r=\"3.4\" fill=\"{}\"/>",
        line.colour
    )
    .expect(TAKES_ALL);
}
