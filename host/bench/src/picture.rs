//! A picture (SVG) of time against rows: a panel for each call, a line for each program.

use std::fmt::Write;

/// The times of a program's call on records of several sizes.
pub struct Curve {
    /// The call.
    pub panel: &'static str,
    /// The program.
    pub program: &'static str,
    /// Rows, and nanoseconds per call.
    pub points: Vec<(f64, f64)>,
}

/// The plot of a panel, and the space around it.
const WIDTH: f64 = 240.0;
const HEIGHT: f64 = 280.0;
const MARGIN: f64 = 60.0;

/// The colours of the lines, by the order of the programs.
const COLOURS: [&str; 5] = ["#1f4e9c", "#c0504d", "#808080", "#2e8b57", "#b8860b"];

/// Both axes are logarithmic: the numbers at the ends of one, and its length.
struct Axis {
    least: f64,
    greatest: f64,
    length: f64,
}

impl Axis {
    /// How far from the start of the axis a number stands.
    fn place(&self, number: f64) -> f64 {
        self.length * (number / self.least).ln() / (self.greatest / self.least).ln()
    }

    /// The numbers on the axis, each so many times the one before it.
    fn marks(&self, factor: f64) -> impl Iterator<Item = f64> + '_ {
        let next = move |mark: &f64| Some(mark * factor);
        std::iter::successors(Some(self.least), next)
            .take_while(|&mark| mark <= self.greatest * 1.01)
    }
}

/// The picture of these curves.
pub fn picture(curves: &[Curve]) -> String {
    let (panels, programs) = (names(curves, |c| c.panel), names(curves, |c| c.program));
    let points = || curves.iter().flat_map(|curve| curve.points.iter());
    let least = |numbers: &mut dyn Iterator<Item = f64>| numbers.fold(f64::INFINITY, f64::min);
    let greatest = |numbers: &mut dyn Iterator<Item = f64>| numbers.fold(0.0, f64::max);
    let x = Axis {
        least: least(&mut points().map(|point| point.0)),
        greatest: greatest(&mut points().map(|point| point.0)),
        length: WIDTH,
    };
    let y = Axis {
        least: 10_f64.powf(least(&mut points().map(|point| point.1)).log10().floor()),
        greatest: 10_f64.powf(greatest(&mut points().map(|point| point.1)).log10().ceil()),
        length: HEIGHT,
    };
    let (width, height) = (
        (WIDTH + MARGIN) * panels.len() as f64 + MARGIN,
        HEIGHT + 2.0 * MARGIN,
    );
    let mut svg = format!(
        "<svg xmlns=\"http://www.w3.org/2000/svg\" viewBox=\"0 0 {width} {height}\" \
         font-family=\"sans-serif\" font-size=\"11\">\n\
         <title>Time of a call against the rows of its record</title>\n\
         <rect width=\"{width}\" height=\"{height}\" fill=\"white\"/>\n"
    );
    for (place, panel) in panels.iter().enumerate() {
        let left = MARGIN + place as f64 * (WIDTH + MARGIN);
        let _ = writeln!(svg, "<g transform=\"translate({left},{MARGIN})\">");
        draw_axes(&mut svg, &x, &y, panel);
        for curve in curves.iter().filter(|curve| curve.panel == *panel) {
            let program = programs.iter().position(|&name| name == curve.program);
            draw_curve(
                &mut svg,
                &x,
                &y,
                curve,
                COLOURS[program.unwrap_or(0) % COLOURS.len()],
            );
        }
        svg.push_str("</g>\n");
    }
    draw_legend(&mut svg, &programs);
    svg.push_str("</svg>\n");
    svg
}

/// The names that the curves have, each once, in their order.
fn names(curves: &[Curve], name: impl Fn(&Curve) -> &'static str) -> Vec<&'static str> {
    let mut names = Vec::new();
    for curve in curves {
        if !names.contains(&name(curve)) {
            names.push(name(curve));
        }
    }
    names
}

fn draw_axes(svg: &mut String, x: &Axis, y: &Axis, title: &str) {
    let _ = writeln!(
        svg,
        "<text x=\"0\" y=\"-8\" font-weight=\"bold\">{title}</text>\n\
         <text x=\"{WIDTH}\" y=\"{}\" text-anchor=\"end\">rows</text>",
        HEIGHT + 34.0
    );
    for mark in y.marks(10.0) {
        let at = HEIGHT - y.place(mark);
        let _ = writeln!(
            svg,
            "<path d=\"M0 {at:.1}H{WIDTH}\" stroke=\"#dddddd\"/>\
             <text x=\"-6\" y=\"{:.1}\" text-anchor=\"end\">{}</text>",
            at + 4.0,
            time(mark)
        );
    }
    for mark in x.marks(4.0) {
        let at = x.place(mark);
        let _ = writeln!(
            svg,
            "<path d=\"M{at:.1} 0V{HEIGHT}\" stroke=\"#dddddd\"/>\
             <text x=\"{at:.1}\" y=\"{}\" text-anchor=\"middle\">{mark}</text>",
            HEIGHT + 16.0
        );
    }
}

fn draw_curve(svg: &mut String, x: &Axis, y: &Axis, curve: &Curve, colour: &str) {
    let place = |&(rows, time): &(f64, f64)| (x.place(rows), HEIGHT - y.place(time));
    let points: Vec<_> = curve.points.iter().map(place).collect();
    let line: Vec<_> = points
        .iter()
        .map(|(x, y)| format!("{x:.1},{y:.1}"))
        .collect();
    let line = line.join(" ");
    let _ = writeln!(
        svg,
        "<polyline points=\"{line}\" fill=\"none\" stroke=\"{colour}\" stroke-width=\"1.8\"/>"
    );
    for (x, y) in points {
        let _ = writeln!(
            svg,
            "<circle cx=\"{x:.1}\" cy=\"{y:.1}\" r=\"2.5\" fill=\"{colour}\"/>"
        );
    }
}

fn draw_legend(svg: &mut String, programs: &[&str]) {
    for (place, program) in programs.iter().enumerate() {
        let (left, colour) = (MARGIN + 90.0 * place as f64, COLOURS[place % COLOURS.len()]);
        let _ = writeln!(
            svg,
            "<path d=\"M{left} 20h24\" stroke=\"{colour}\" stroke-width=\"1.8\"/>\
             <text x=\"{}\" y=\"24\">{program}</text>",
            left + 30.0
        );
    }
}

/// A time with its unit.
fn time(nanoseconds: f64) -> String {
    match nanoseconds {
        ns if ns < 999.0 => format!("{ns:.0} ns"),
        ns if ns < 999_000.0 => format!("{:.0} µs", ns / 1_000.0),
        ns => format!("{:.0} ms", ns / 1_000_000.0),
    }
}

#[cfg(test)]
mod tests {
    use super::*;

    #[test]
    fn a_curve_goes_from_corner_to_corner() {
        let curve = Curve {
            panel: "read",
            program: "library",
            points: vec![(16.0, 100.0), (256.0, 1_000.0), (4_096.0, 10_000.0)],
        };
        let svg = picture(&[curve]);
        let line = "points=\"0.0,280.0 120.0,140.0 240.0,0.0\"";
        assert!(svg.contains(line), "{svg}");
        for text in [
            "100 ns",
            "1 µs",
            "10 µs",
            ">16<",
            ">4096<",
            ">library<",
            ">read<",
        ] {
            assert!(svg.contains(text), "{text} in {svg}");
        }
    }
}
