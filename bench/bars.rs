//! Bar charts as an SVG file: for each name a share before and a share after.

pub struct Bar {
    pub name: String,
    pub before: f64,
    pub after: f64,
}

pub struct Chart {
    pub across: &'static str,
    pub bars: Vec<Bar>,
}

const WIDTH: f64 = 760.0;
const LEFT: f64 = 70.0;
const RIGHT: f64 = 20.0;
const TOP: f64 = 70.0;
/// the height of a chart, and of the bars in it
const CHART: f64 = 300.0;
const BARS: f64 = 190.0;
const BEFORE: &str = "#b5542b";
const AFTER: &str = "#1b6ca8";

fn text(x: f64, y: f64, anchor: &str, said: &str) -> String {
    format!("<text x=\"{x:.1}\" y=\"{y:.1}\" text-anchor=\"{anchor}\">{said}</text>\n")
}

fn bar(x: f64, floor: f64, width: f64, share: f64, colour: &str) -> String {
    let height = share * BARS;
    format!(
        "<rect x=\"{x:.1}\" y=\"{:.1}\" width=\"{width:.1}\" height=\"{height:.1}\" fill=\"{colour}\"/>\n",
        floor - height
    )
}

fn chart(chart: &Chart, top: f64) -> String {
    let floor = top + BARS;
    let mut out = String::new();
    for percent in [0, 25, 50, 75, 100] {
        let y = floor - f64::from(percent) / 100.0 * BARS;
        out += &format!(
            "<line x1=\"{LEFT}\" y1=\"{y:.1}\" x2=\"{:.1}\" y2=\"{y:.1}\" stroke=\"#dddddd\"/>\n",
            WIDTH - RIGHT
        );
        out += &text(LEFT - 8.0, y + 4.0, "end", &format!("{percent} %"));
    }
    let wide = (WIDTH - LEFT - RIGHT) / chart.bars.len() as f64;
    for (i, one) in chart.bars.iter().enumerate() {
        let x = LEFT + i as f64 * wide;
        out += &bar(x + 0.1 * wide, floor, 0.4 * wide, one.before, BEFORE);
        out += &bar(x + 0.5 * wide, floor, 0.4 * wide, one.after, AFTER);
        let (x, y) = (x + wide / 2.0, floor + 14.0);
        out += &format!(
            "<text x=\"{x:.1}\" y=\"{y:.1}\" text-anchor=\"end\" font-size=\"11\" transform=\"rotate(-35 {x:.1} {y:.1})\">{}</text>\n",
            one.name
        );
    }
    out + &text((LEFT + WIDTH - RIGHT) / 2.0, floor + 82.0, "middle", chart.across)
}

pub fn svg(title: &str, about: &str, charts: &[Chart]) -> String {
    let height = TOP + CHART * charts.len() as f64;
    let mut out = format!(
        "<svg xmlns=\"http://www.w3.org/2000/svg\" viewBox=\"0 0 {WIDTH} {height}\" role=\"img\" aria-labelledby=\"title about\" font-family=\"sans-serif\" font-size=\"13\">\n\
         <title id=\"title\">{title}</title>\n<desc id=\"about\">{about}</desc>\n\
         <rect width=\"{WIDTH}\" height=\"{height}\" fill=\"#ffffff\"/>\n\
         <text x=\"{LEFT}\" y=\"24\" font-size=\"16\">{title}</text>\n"
    );
    for (i, (name, colour)) in [("before", BEFORE), ("after", AFTER)].into_iter().enumerate() {
        let x = LEFT + 100.0 * i as f64;
        out += &format!("<rect x=\"{x}\" y=\"36\" width=\"12\" height=\"12\" fill=\"{colour}\"/>\n");
        out += &text(x + 18.0, 47.0, "start", name);
    }
    for (i, one) in charts.iter().enumerate() {
        out += &chart(one, TOP + CHART * i as f64);
    }
    out + "</svg>\n"
}
