//! A plot as an SVG file: lines over a logarithmic scale on both axes, with their names beside them.

pub struct Line {
    pub name: &'static str,
    pub colour: &'static str,
    pub points: Vec<(f64, f64)>,
}

const WIDTH: f64 = 760.0;
const HEIGHT: f64 = 460.0;
const LEFT: f64 = 80.0;
const RIGHT: f64 = 150.0;
const TOP: f64 = 50.0;
const BOTTOM: f64 = 60.0;

fn decades(low: f64, high: f64) -> Vec<f64> {
    let mut marks = vec![10_f64.powf(low.log10().floor())];
    while marks[marks.len() - 1] < high {
        marks.push(marks[marks.len() - 1] * 10.0);
    }
    marks
}

pub fn svg(title: &str, about: &str, across: &str, up: &str, lines: &[Line]) -> String {
    let all = || lines.iter().flat_map(|line| &line.points);
    let most = |values: &mut dyn Iterator<Item = f64>| values.fold(0.0, f64::max);
    let least = |values: &mut dyn Iterator<Item = f64>| values.fold(f64::INFINITY, f64::min);
    let xs = decades(1.0, most(&mut all().map(|p| p.0)));
    let ys = decades(least(&mut all().map(|p| p.1)), most(&mut all().map(|p| p.1)));
    let scale = |value: f64, marks: &[f64]| (value / marks[0]).log10() / (marks[marks.len() - 1] / marks[0]).log10();
    let x = |value: f64| LEFT + scale(value, &xs) * (WIDTH - LEFT - RIGHT);
    let y = |value: f64| HEIGHT - BOTTOM - scale(value, &ys) * (HEIGHT - TOP - BOTTOM);
    let mut out = format!(
        "<svg xmlns=\"http://www.w3.org/2000/svg\" viewBox=\"0 0 {WIDTH} {HEIGHT}\" role=\"img\" aria-labelledby=\"title about\" font-family=\"sans-serif\" font-size=\"13\">\n\
         <title id=\"title\">{title}</title>\n<desc id=\"about\">{about}</desc>\n\
         <rect width=\"{WIDTH}\" height=\"{HEIGHT}\" fill=\"#ffffff\"/>\n\
         <text x=\"{LEFT}\" y=\"24\" font-size=\"16\">{title}</text>\n"
    );
    for &mark in &xs {
        out += &format!(
            "<line x1=\"{0:.1}\" y1=\"{TOP}\" x2=\"{0:.1}\" y2=\"{1}\" stroke=\"#dddddd\"/>\n",
            x(mark),
            HEIGHT - BOTTOM
        );
        out += &format!(
            "<text x=\"{:.1}\" y=\"{}\" text-anchor=\"middle\">{mark}</text>\n",
            x(mark),
            HEIGHT - BOTTOM + 20.0
        );
    }
    for &mark in &ys {
        out += &format!(
            "<line x1=\"{LEFT}\" y1=\"{0:.1}\" x2=\"{1}\" y2=\"{0:.1}\" stroke=\"#dddddd\"/>\n",
            y(mark),
            WIDTH - RIGHT
        );
        out += &format!("<text x=\"{}\" y=\"{:.1}\" text-anchor=\"end\">{mark}</text>\n", LEFT - 8.0, y(mark) + 4.0);
    }
    out += &format!(
        "<text x=\"{}\" y=\"{}\" text-anchor=\"middle\">{across}</text>\n",
        (LEFT + WIDTH - RIGHT) / 2.0,
        HEIGHT - 16.0
    );
    out += &format!(
        "<text x=\"20\" y=\"{0}\" text-anchor=\"middle\" transform=\"rotate(-90 20 {0})\">{up}</text>\n",
        (TOP + HEIGHT - BOTTOM) / 2.0
    );
    for line in lines {
        let path: Vec<String> = line.points.iter().map(|&(a, b)| format!("{:.1},{:.1}", x(a), y(b))).collect();
        out += &format!(
            "<polyline points=\"{}\" fill=\"none\" stroke=\"{}\" stroke-width=\"2\"/>\n",
            path.join(" "),
            line.colour
        );
        for &(a, b) in &line.points {
            out += &format!("<circle cx=\"{:.1}\" cy=\"{:.1}\" r=\"3\" fill=\"{}\"/>\n", x(a), y(b), line.colour);
        }
        let &(a, b) = &line.points[line.points.len() - 1];
        out += &format!(
            "<text x=\"{:.1}\" y=\"{:.1}\" fill=\"{}\">{}</text>\n",
            x(a) + 8.0,
            y(b) + 4.0,
            line.colour,
            line.name
        );
    }
    out + "</svg>\n"
}
