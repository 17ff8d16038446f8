//! Time over the number of components, both on logarithmic scales, as an SVG.

#[derive(Clone, Copy)]
pub enum Style {
    Median,
    Before,
    Worst,
    Paper,
}

impl Style {
    /// The worst is light and thin, so that the medians stay in front.
    fn stroke(self) -> &'static str {
        match self {
            Style::Median => "stroke-width=\"2\"",
            Style::Before => "stroke-width=\"1.2\"",
            Style::Worst => "stroke-width=\"1\" stroke-dasharray=\"2 3\" opacity=\"0.8\"",
            Style::Paper => "stroke-width=\"2\" stroke-dasharray=\"6 4\"",
        }
    }
}

pub struct Line {
    pub name: &'static str,
    pub color: &'static str,
    pub style: Style,
    /// Components and seconds.
    pub points: Vec<(f64, f64)>,
}

pub struct Panel {
    pub title: String,
    /// The numbers of components that the scale names; the first and the last are its ends.
    pub components: Vec<f64>,
    pub lines: Vec<Line>,
}

const WIDE: f64 = 300.0;
const HIGH: f64 = 260.0;
const LEFT: f64 = 60.0;
const TOP: f64 = 40.0;
/// From one panel to the next, to the right and down.
const STEP: f64 = 370.0;
const DOWN: f64 = HIGH + 90.0;
/// Panels in a row, and as many entries in a row of the legend.
const COLUMNS: usize = 3;
const LINE: f64 = 20.0;
const SECONDS: [(f64, &str); 9] = [
    (1e-7, "0.1 µs"),
    (1e-6, "1 µs"),
    (1e-5, "10 µs"),
    (1e-4, "0.1 ms"),
    (1e-3, "1 ms"),
    (1e-2, "10 ms"),
    (0.1, "0.1 s"),
    (1.0, "1 s"),
    (10.0, "10 s"),
];

/// Where a value stands between the first and the last of its scale, 0 to 1.
fn along(value: f64, first: f64, last: f64) -> f64 {
    ((value / first).ln() / (last / first).ln()).clamp(0.0, 1.0)
}

impl Panel {
    fn x(&self, components: f64) -> f64 {
        along(components, self.components[0], self.components[self.components.len() - 1]) * WIDE
    }

    fn drawn(&self) -> String {
        let mut out = self.frame();
        for line in &self.lines {
            out += &curve(line, &line.points.iter().map(|&(n, s)| (self.x(n), y(s))).collect::<Vec<_>>());
        }
        out
    }

    fn frame(&self) -> String {
        let (middle, title) = (WIDE / 2.0, &self.title);
        let mut out =
            format!("<text x=\"{middle}\" y=\"-14\" text-anchor=\"middle\" font-size=\"14\">{title}</text>\n");
        for &n in &self.components {
            let at = self.x(n);
            out += &format!("<path d=\"M{at:.1} 0V{HIGH}\" stroke=\"#ddd\"/>");
            out += &format!("<text x=\"{at:.1}\" y=\"{}\" text-anchor=\"middle\">{n}</text>\n", HIGH + 17.0);
        }
        for (seconds, name) in SECONDS {
            let at = y(seconds);
            out += &format!("<path d=\"M0 {at:.1}H{WIDE}\" stroke=\"#ddd\"/>");
            out += &format!("<text x=\"-6\" y=\"{:.1}\" text-anchor=\"end\">{name}</text>\n", at + 4.0);
        }
        out + &format!("<text x=\"{middle}\" y=\"{}\" text-anchor=\"middle\">components</text>\n", HIGH + 34.0)
    }
}

fn y(seconds: f64) -> f64 {
    HIGH - along(seconds, SECONDS[0].0, SECONDS[8].0) * HIGH
}

/// Where the entry with that number stands, from left to right and then down.
fn place(at: usize, top: f64, down: f64) -> (f64, f64) {
    (LEFT + STEP * (at % COLUMNS) as f64, top + down * (at / COLUMNS) as f64)
}

pub fn svg(panels: &[Panel], caption: &[&str]) -> String {
    let lines = &panels[0].lines;
    let legend = TOP + DOWN * panels.len().div_ceil(COLUMNS) as f64 - 20.0;
    let under = legend + LINE * lines.len().div_ceil(COLUMNS) as f64 + 14.0;
    let (wide, high) = (LEFT + STEP * COLUMNS as f64 - 50.0, under + LINE * caption.len() as f64);
    let mut out = format!(
        "<svg xmlns=\"http://www.w3.org/2000/svg\" viewBox=\"0 0 {wide} {high}\" font-family=\"sans-serif\" font-size=\"11\">\n\
         <rect width=\"{wide}\" height=\"{high}\" fill=\"white\"/>\n"
    );
    for (i, panel) in panels.iter().enumerate() {
        let (left, top) = place(i, TOP, DOWN);
        out += &format!("<g transform=\"translate({left} {top})\">\n{}</g>\n", panel.drawn());
    }
    for (i, line) in lines.iter().enumerate() {
        let (left, down) = place(i, legend, LINE);
        out += &curve(line, &[(left, down), (left + 36.0, down)]);
        out += &format!("<text x=\"{}\" y=\"{}\">{}</text>\n", left + 46.0, down + 4.0, line.name);
    }
    for (i, text) in caption.iter().enumerate() {
        out += &format!("<text x=\"{LEFT}\" y=\"{}\">{text}</text>\n", under + LINE * i as f64);
    }
    out + "</svg>\n"
}

fn curve(line: &Line, points: &[(f64, f64)]) -> String {
    let at: Vec<String> = points.iter().map(|(x, y)| format!("{x:.1},{y:.1}")).collect();
    let (color, stroke) = (line.color, line.style.stroke());
    let mut out = format!("<g {stroke}>\n<polyline points=\"{}\" fill=\"none\" stroke=\"{color}\"/>\n", at.join(" "));
    for (x, y) in points {
        out += &format!("<circle cx=\"{x:.1}\" cy=\"{y:.1}\" r=\"2\" fill=\"{color}\"/>\n");
    }
    out + "</g>\n"
}
