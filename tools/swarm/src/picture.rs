//! Lines over time, as SVG.

use std::fmt::Write;

const WIDTH: f64 = 760.0;
const HEIGHT: f64 = 400.0;
const LEFT: f64 = 70.0;
const RIGHT: f64 = 200.0;
const TOP: f64 = 40.0;
const BOTTOM: f64 = 55.0;

/// Colours that differ for most eyes (Okabe and Ito 2008).
const COLOURS: [&str; 7] = ["#0072b2", "#d55e00", "#009e73", "#cc79a7", "#e69f00", "#56b4e9", "#000000"];
const DASHES: [&str; 2] = ["none", "7 3"];

/// The points of a line of a chart, from the left to the right.
#[derive(Clone, Debug)]
pub struct Series {
    pub name: String,
    /// The same style is the same colour in each picture.
    pub style: usize,
    pub points: Vec<(f64, f64)>,
}

/// Lines in one frame.
#[derive(Clone, Debug)]
pub struct Chart {
    pub title: String,
    pub across: String,
    pub up: String,
    pub series: Vec<Series>,
}

/// An axis from 0 to a round number, with some marks.
#[derive(Clone, Copy, Debug, PartialEq)]
struct Axis {
    step: f64,
    end: f64,
}

impl Axis {
    /// The axis that has room for the number: 4 to 10 marks of 1, 2 or 5 times a power of ten.
    fn of(greatest: f64) -> Axis {
        let greatest = if greatest > 0.0 { greatest } else { 1.0 };
        let power = 10f64.powf((greatest / 10.0).log10().floor());
        let step = [1.0, 2.0, 5.0, 10.0].map(|times| times * power).into_iter().find(|step| greatest / step <= 10.0).unwrap_or(greatest);
        Axis { step, end: (greatest / step - 1e-9).ceil() * step }
    }

    fn marks(self) -> impl Iterator<Item = f64> {
        (0..=(self.end / self.step).round() as u32).map(move |mark| f64::from(mark) * self.step)
    }
}

impl Chart {
    /// The picture.
    pub fn svg(&self) -> String {
        let greatest = |pick: fn(&(f64, f64)) -> f64| self.series.iter().flat_map(|series| &series.points).map(pick).fold(0.0, f64::max);
        let (across, up) = (Axis::of(greatest(|point| point.0)), Axis::of(greatest(|point| point.1)));
        let mut text = format!(
            "<svg xmlns=\"http://www.w3.org/2000/svg\" viewBox=\"0 0 {WIDTH} {HEIGHT}\" width=\"{WIDTH}\" height=\"{HEIGHT}\" \
             font-family=\"sans-serif\" font-size=\"12\">\n<rect width=\"100%\" height=\"100%\" fill=\"white\"/>\n"
        );
        self.frame(&mut text, across, up);
        for (place, series) in self.series.iter().enumerate() {
            line(&mut text, place, series, across, up);
        }
        text.push_str("</svg>\n");
        text
    }

    fn frame(&self, text: &mut String, across: Axis, up: Axis) {
        let (right, bottom) = (WIDTH - RIGHT, HEIGHT - BOTTOM);
        for mark in across.marks() {
            let x = x_of(mark, across);
            add(text, &format!("<line x1=\"{x:.1}\" y1=\"{TOP}\" x2=\"{x:.1}\" y2=\"{bottom}\" stroke=\"#ddd\"/>"));
            label(text, x, bottom + 17.0, "middle", &number(mark, across.step));
        }
        for mark in up.marks() {
            let y = y_of(mark, up);
            add(text, &format!("<line x1=\"{LEFT}\" y1=\"{y:.1}\" x2=\"{right}\" y2=\"{y:.1}\" stroke=\"#ddd\"/>"));
            label(text, LEFT - 7.0, y + 4.0, "end", &number(mark, up.step));
        }
        add(text, &format!("<path d=\"M{LEFT} {TOP}V{bottom}H{right}\" fill=\"none\" stroke=\"black\"/>"));
        label(text, (LEFT + right) / 2.0, HEIGHT - 15.0, "middle", &self.across);
        let (x, y) = (18.0, (TOP + bottom) / 2.0);
        add(
            text,
            &format!("<text x=\"{x}\" y=\"{y}\" text-anchor=\"middle\" transform=\"rotate(-90 {x} {y})\">{}</text>", escaped(&self.up)),
        );
        add(text, &format!("<text x=\"{LEFT}\" y=\"22\" font-size=\"14\" font-weight=\"bold\">{}</text>", escaped(&self.title)));
    }
}

/// A line and its name.
fn line(text: &mut String, place: usize, series: &Series, across: Axis, up: Axis) {
    let stroke = format!(
        "stroke=\"{}\" stroke-width=\"2\" stroke-dasharray=\"{}\"",
        COLOURS[series.style % COLOURS.len()],
        DASHES[series.style % DASHES.len()]
    );
    let points: Vec<String> = series.points.iter().map(|&(x, y)| format!("{:.1},{:.1}", x_of(x, across), y_of(y, up))).collect();
    add(text, &format!("<polyline fill=\"none\" {stroke} points=\"{}\"/>", points.join(" ")));
    let (x, y) = (WIDTH - RIGHT + 15.0, TOP + 15.0 + 20.0 * place as f64);
    add(text, &format!("<line x1=\"{x}\" y1=\"{y}\" x2=\"{}\" y2=\"{y}\" {stroke}/>", x + 28.0));
    label(text, x + 36.0, y + 4.0, "start", &series.name);
}

fn x_of(value: f64, axis: Axis) -> f64 {
    LEFT + (WIDTH - LEFT - RIGHT) * value / axis.end
}

fn y_of(value: f64, axis: Axis) -> f64 {
    HEIGHT - BOTTOM - (HEIGHT - TOP - BOTTOM) * value / axis.end
}

fn add(text: &mut String, element: &str) {
    text.push_str(element);
    text.push('\n');
}

fn label(text: &mut String, x: f64, y: f64, anchor: &str, words: &str) {
    // Writing into a text can't fail.
    let _ = writeln!(text, "<text x=\"{x:.1}\" y=\"{y:.1}\" text-anchor=\"{anchor}\">{}</text>", escaped(words));
}

/// A mark's number, with a comma at thousands.
fn number(mark: f64, step: f64) -> String {
    if step < 1.0 {
        return format!("{mark:.1}");
    }
    let whole = mark.round() as u64;
    if whole < 1000 {
        whole.to_string()
    } else {
        format!("{},{:03}", whole / 1000, whole % 1000)
    }
}

fn escaped(words: &str) -> String {
    words.replace('&', "&amp;").replace('<', "&lt;")
}

#[cfg(test)]
mod tests {
    use super::*;

    #[test]
    fn an_axis_has_round_marks() {
        assert_eq!(Axis::of(100.0), Axis { step: 10.0, end: 100.0 });
        assert_eq!(Axis::of(2_601.0), Axis { step: 500.0, end: 3_000.0 });
        assert_eq!(Axis::of(37.0), Axis { step: 5.0, end: 40.0 });
        assert_eq!(Axis::of(0.0), Axis { step: 0.1, end: 1.0 });
        let marks: Vec<String> = Axis::of(2_001.0).marks().map(|mark| number(mark, 500.0)).collect();
        assert_eq!(marks, ["0", "500", "1,000", "1,500", "2,000", "2,500"]);
    }

    #[test]
    fn a_line_goes_from_corner_to_corner() {
        let series = Series { name: "a < b".into(), style: 8, points: vec![(0.0, 0.0), (10.0, 5.0)] };
        let chart = Chart { title: "t".into(), across: "s".into(), up: "n".into(), series: vec![series] };
        let svg = chart.svg();
        assert!(svg.contains("points=\"70.0,345.0 560.0,40.0\""), "{svg}");
        assert!(svg.contains("a &lt; b"));
        assert!(svg.contains(COLOURS[1]) && !svg.contains(COLOURS[0]));
    }
}
