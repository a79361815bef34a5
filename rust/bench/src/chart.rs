//! The ratios as a bar chart on a logarithmic scale: bars to the right of 1 where the library is faster.
use crate::report::Row;

const LABELS: f64 = 420.0; // width of the labels
const GAP: f64 = 36.0; // between the labels and the scale: room for a figure
const SCALE: f64 = 400.0; // width of the scale
const LINE: f64 = 16.0;
const TOP: f64 = 70.0;
const FASTER: &str = "#2a7f3f";
const SLOWER: &str = "#b5472f";

struct Bar {
    group: &'static str,
    label: String,
    ratio: f64,
}

fn bars(rows: &[Row]) -> Vec<Bar> {
    let bar = |row: &Row, ratio: f64, to: &str| Bar { group: row.group, label: format!("{}, {}{to}", row.what, row.size), ratio };
    let of = |row: &Row| {
        let to_c = row.ratio_to_c().map(|ratio| bar(row, ratio, ", to the C loop"));
        [Some(bar(row, row.ratio(), "")), to_c].into_iter().flatten().collect::<Vec<_>>()
    };
    rows.iter().flat_map(of).collect()
}

/// The place of a ratio on a scale between two powers of ten.
struct Scale {
    low: f64,
    high: f64,
}

impl Scale {
    fn of(bars: &[Bar]) -> Scale {
        let logs = || bars.iter().map(|bar| bar.ratio.log10());
        Scale { low: logs().fold(-1.0, f64::min).floor(), high: logs().fold(1.0, f64::max).ceil() }
    }

    fn x(&self, ratio: f64) -> f64 {
        LABELS + GAP + (ratio.log10() - self.low) / (self.high - self.low) * SCALE
    }
}

pub fn svg(rows: &[Row]) -> String {
    let bars = bars(rows);
    let scale = Scale::of(&bars);
    let (mut text, mut y, mut group) = (String::new(), TOP, "");
    for bar in &bars {
        if bar.group != group {
            group = bar.group;
            y += 1.5 * LINE;
            text += &label(10.0, y - 3.0, "start", &format!("<tspan font-weight=\"bold\">{group}</tspan>"));
        }
        text += &draw(bar, &scale, y);
        y += LINE;
    }
    let (width, height) = (LABELS + GAP + SCALE + 50.0, y + 20.0);
    let size = format!("width=\"{width}\" height=\"{height}\" viewBox=\"0 0 {width} {height}\"");
    let style = "font-family=\"sans-serif\" font-size=\"11\" fill=\"#222\"";
    let title = "Speed of the library over plain Rust (or the C loop); above 1 the library is faster";
    let head =
        format!("<svg xmlns=\"http://www.w3.org/2000/svg\" {size} {style}>\n<rect width=\"100%\" height=\"100%\" fill=\"white\"/>\n");
    head + &format!("<text x=\"10\" y=\"22\" font-size=\"15\">{title}</text>\n") + &axis(&scale, y) + &text + "</svg>\n"
}

fn label(x: f64, y: f64, anchor: &str, text: &str) -> String {
    format!("<text x=\"{x:.1}\" y=\"{y:.1}\" text-anchor=\"{anchor}\">{text}</text>\n")
}

/// A line at each 1, 2 and 5 of the scale.
fn axis(scale: &Scale, bottom: f64) -> String {
    let powers = scale.low as i32..=scale.high as i32;
    let ticks = powers.flat_map(|power| [1.0, 2.0, 5.0].map(|digit| digit * 10f64.powi(power)));
    let line = |ratio: f64| {
        let (x, top) = (scale.x(ratio), TOP - 14.0);
        let colour = if ratio == 1.0 { "#222" } else { "#ddd" };
        let line = format!("<line x1=\"{x:.1}\" y1=\"{top}\" x2=\"{x:.1}\" y2=\"{bottom}\" stroke=\"{colour}\"/>\n");
        line + &label(x, top - 4.0, "middle", &format!("{ratio}"))
    };
    ticks.filter(|ratio| ratio.log10() <= scale.high + 1e-9).map(line).collect()
}

fn draw(bar: &Bar, scale: &Scale, y: f64) -> String {
    let (one, end) = (scale.x(1.0), scale.x(bar.ratio));
    let (x, width) = (one.min(end), (one - end).abs());
    let (colour, at, anchor) = if bar.ratio < 1.0 { (SLOWER, x - 4.0, "end") } else { (FASTER, end + 4.0, "start") };
    let text = bar.label.replace('&', "&amp;").replace('<', "&lt;");
    let height = LINE - 5.0;
    format!("<rect x=\"{x:.1}\" y=\"{y:.1}\" width=\"{width:.1}\" height=\"{height}\" fill=\"{colour}\"/>\n")
        + &label(LABELS, y + 9.5, "end", &text)
        + &label(at, y + 9.5, anchor, &format!("{:.2}", bar.ratio))
}
