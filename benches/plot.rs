//! The picture: nanoseconds per byte over the length of the message, both axes logarithmic.

/// What stands at a point: a disc, a ring or a square.
pub enum Mark {
    Full,
    Hollow,
    Square,
}

pub struct Line {
    pub name: String,
    pub colour: &'static str,
    /// The lengths of dashes and gaps; empty for an unbroken line.
    pub dash: &'static str,
    pub mark: Mark,
    pub points: Vec<(f64, f64)>,
}

const WIDTH: f64 = 760.0;
const HEIGHT: f64 = 560.0;
const LEFT: f64 = 85.0;
const RIGHT: f64 = WIDTH - 30.0;
const TOP: f64 = 50.0;
const BOTTOM: f64 = HEIGHT - 125.0;

/// 1, 2 and 5 times each power of ten, from the last at or below the least to the first at or above the greatest.
fn ticks(least: f64, greatest: f64) -> Vec<f64> {
    let all: Vec<f64> = (-3..12).flat_map(|e| [1.0, 2.0, 5.0].map(|m| m * 10f64.powi(e))).collect();
    let from = all.iter().rposition(|t| *t <= least).unwrap_or(0);
    let to = all.iter().position(|t| *t >= greatest).unwrap_or(all.len() - 1);
    all[from..=to].to_vec()
}

fn text(x: f64, y: f64, size: u32, rest: &str, what: &str) -> String {
    format!("<text x=\"{x:.1}\" y=\"{y:.1}\" font-size=\"{size}\" {rest}>{what}</text>\n")
}

fn straight(x1: f64, y1: f64, x2: f64, y2: f64, rest: &str) -> String {
    format!("<line x1=\"{x1:.1}\" y1=\"{y1:.1}\" x2=\"{x2:.1}\" y2=\"{y2:.1}\" {rest}/>\n")
}

/// How a line is drawn.
fn stroke(line: &Line) -> String {
    let dash = if line.dash.is_empty() { String::new() } else { format!(" stroke-dasharray=\"{}\"", line.dash) };
    format!("fill=\"none\" stroke=\"{}\" stroke-width=\"2\"{dash}", line.colour)
}

fn mark(x: f64, y: f64, line: &Line) -> String {
    let colour = line.colour;
    match line.mark {
        Mark::Full => format!("<circle cx=\"{x:.1}\" cy=\"{y:.1}\" r=\"4\" fill=\"{colour}\"/>\n"),
        Mark::Hollow => {
            format!("<circle cx=\"{x:.1}\" cy=\"{y:.1}\" r=\"4\" fill=\"#fff\" stroke=\"{colour}\" stroke-width=\"2\"/>\n")
        }
        Mark::Square => {
            let (left, top) = (x - 4.5, y - 4.5);
            format!("<rect x=\"{left:.1}\" y=\"{top:.1}\" width=\"9\" height=\"9\" fill=\"none\" stroke=\"{colour}\"/>\n")
        }
    }
}

/// The picture of lines whose points have the same lengths, each twice the one before; `number` writes a number.
pub fn svg(title: &str, lines: &[Line], number: impl Fn(f64) -> String) -> String {
    let lengths: Vec<f64> = lines[0].points.iter().map(|p| p.0).collect();
    let costs = || lines.iter().flat_map(|l| l.points.iter().map(|p| p.1));
    let marks = ticks(costs().fold(f64::MAX, f64::min), costs().fold(0.0, f64::max));
    let part = |v: f64, all: &[f64]| (v / all[0]).ln() / (all[all.len() - 1] / all[0]).ln();
    let x = |v: f64| LEFT + (RIGHT - LEFT) * part(v, &lengths);
    let y = |v: f64| BOTTOM - (BOTTOM - TOP) * part(v, &marks);

    let mut out = format!(
        "<svg xmlns=\"http://www.w3.org/2000/svg\" width=\"{WIDTH}\" height=\"{HEIGHT}\" viewBox=\"0 0 {WIDTH} {HEIGHT}\" \
         font-family=\"sans-serif\" fill=\"#222\">\n<title>{title}</title>\n\
         <rect width=\"{WIDTH}\" height=\"{HEIGHT}\" fill=\"#fff\"/>\n"
    );
    let (centre, end) = ("text-anchor=\"middle\"", "text-anchor=\"end\"");
    out += &text((LEFT + RIGHT) / 2.0, 28.0, 16, centre, title);
    for length in &lengths {
        out += &straight(x(*length), TOP, x(*length), BOTTOM + 5.0, "stroke=\"#ddd\"");
        out += &text(x(*length), BOTTOM + 21.0, 13, centre, &number(*length));
    }
    for cost in &marks {
        out += &straight(LEFT - 5.0, y(*cost), RIGHT, y(*cost), "stroke=\"#ddd\"");
        out += &text(LEFT - 10.0, y(*cost) + 4.5, 13, end, &number(*cost));
    }
    out += &straight(LEFT, TOP, LEFT, BOTTOM, "stroke=\"#222\"");
    out += &straight(LEFT, BOTTOM, RIGHT, BOTTOM, "stroke=\"#222\"");
    out += &text((LEFT + RIGHT) / 2.0, BOTTOM + 44.0, 14, centre, "length of the message, bytes");
    let middle = (TOP + BOTTOM) / 2.0;
    let turned = format!("{centre} transform=\"rotate(-90 22 {middle:.1})\"");
    out += &text(22.0, middle, 14, &turned, "nanoseconds per byte");
    // The first on top.
    for line in lines.iter().rev() {
        let points: Vec<String> = line.points.iter().map(|p| format!("{:.1},{:.1}", x(p.0), y(p.1))).collect();
        out += &format!("<polyline points=\"{}\" {}/>\n", points.join(" "), stroke(line));
        out.extend(line.points.iter().map(|p| mark(x(p.0), y(p.1), line)));
    }
    // The legend: three names in a row.
    for (i, line) in lines.iter().enumerate() {
        let (at, down) = (LEFT + 215.0 * (i % 3) as f64, BOTTOM + 76.0 + 26.0 * (i / 3) as f64);
        out += &straight(at, down, at + 44.0, down, &stroke(line));
        out += &mark(at + 22.0, down, line);
        out += &text(at + 54.0, down + 5.0, 14, "", &line.name);
    }
    out + "</svg>\n"
}
