//! Plots as plain SVG.

use std::fmt::Write;

const COLOURS: [&str; 9] = [
    "#0b5fa5", "#d1491b", "#2a8a3e", "#8a3fa0", "#b8860b", "#c2185b", "#00838f", "#5d4037",
    "#616161",
];

const GREY: &str = "#d8d8d8";
const TEXT: &str = "#222222";

/// A value's range over the layouts, with the median between.
#[derive(Clone, Copy, Debug)]
pub struct Range {
    pub least: f64,
    pub median: f64,
    pub greatest: f64,
}

impl Range {
    pub fn of(mut values: Vec<f64>) -> Range {
        values.sort_by(f64::total_cmp);
        let count = values.len();
        Range {
            least: values[0],
            median: (values[(count - 1) / 2] + values[count / 2]) / 2.0,
            greatest: values[count - 1],
        }
    }
}

/// 1,460 and 32 Ki: as a reader would write it.
pub fn bytes(count: usize) -> String {
    match count {
        c if c >= 1_048_576 && c % 1_048_576 == 0 => format!("{} MiB", c / 1_048_576),
        c if c >= 1_024 && c % 1_024 == 0 => format!("{} KiB", c / 1_024),
        c if c >= 1_000 => format!("{},{:03}", c / 1_000, c % 1_000),
        c => c.to_string(),
    }
}

fn label(svg: &mut String, x: f64, y: f64, anchor: &str, size: u32, weight: &str, text: &str) {
    let text = text.replace('&', "&amp;").replace('<', "&lt;");
    let _ = writeln!(
        svg,
        "<text x=\"{x:.1}\" y=\"{y:.1}\" text-anchor=\"{anchor}\" font-size=\"{size}\" font-weight=\"{weight}\" fill=\"{TEXT}\">{text}</text>"
    );
}

fn stroke(svg: &mut String, from: (f64, f64), to: (f64, f64), colour: &str, width: f64) {
    let _ = writeln!(
        svg,
        "<line x1=\"{:.1}\" y1=\"{:.1}\" x2=\"{:.1}\" y2=\"{:.1}\" stroke=\"{colour}\" stroke-width=\"{width}\"/>",
        from.0, from.1, to.0, to.1
    );
}

fn dot(svg: &mut String, at: (f64, f64), colour: &str) {
    let _ = writeln!(
        svg,
        "<circle cx=\"{:.1}\" cy=\"{:.1}\" r=\"3\" fill=\"{colour}\"/>",
        at.0, at.1
    );
}

/// The whole picture, on white, so that it is readable on a dark page too.
fn framed(width: f64, height: f64, body: &str) -> String {
    format!(
        "<svg xmlns=\"http://www.w3.org/2000/svg\" width=\"{width}\" height=\"{height}\" viewBox=\"0 0 {width} {height}\" font-family=\"DejaVu Sans, Verdana, sans-serif\">\n<rect width=\"{width}\" height=\"{height}\" fill=\"white\"/>\n{body}</svg>\n"
    )
}

/// Ticks at 1, 2 and 5 times the powers of ten, from below the least to above the
/// greatest.
fn ticks(least: f64, greatest: f64) -> Vec<f64> {
    let steps: Vec<f64> = (-4..6)
        .flat_map(|power| [1.0, 2.0, 5.0].map(|step| step * 10f64.powi(power)))
        .collect();
    let first = steps.iter().rposition(|tick| *tick <= least).unwrap_or(0);
    let last = steps.iter().position(|tick| *tick >= greatest);
    steps[first..=last.unwrap_or(steps.len() - 1)].to_vec()
}

fn legend(svg: &mut String, names: &[&str], x: f64, mut y: f64) {
    for (index, name) in names.iter().enumerate() {
        let colour = COLOURS[index % COLOURS.len()];
        stroke(svg, (x, y - 4.0), (x + 22.0, y - 4.0), colour, 2.0);
        dot(svg, (x + 11.0, y - 4.0), colour);
        label(svg, x + 30.0, y, "start", 12, "normal", name);
        y += 18.0;
    }
}

/// A row of ratios, one for each of the series that has one.
pub struct Row {
    pub name: String,
    pub values: Vec<Option<Range>>,
}

/// Ratios: a dot at the median and a bar from the least to the greatest layout,
/// on a scale of powers, with a line at 1.
pub fn ratios(title: &str, plotted: &str, axis: &str, names: &[&str], rows: &[Row]) -> String {
    const LEFT: f64 = 200.0;
    const PLOT: f64 = 540.0;
    const TOP: f64 = 70.0;
    const STEP: f64 = 9.0;
    const GAP: f64 = 9.0;

    let every: Vec<Range> = rows
        .iter()
        .flat_map(|row| row.values.iter().flatten().copied())
        .collect();
    let least = every.iter().map(|r| r.least).fold(1.0, f64::min);
    let greatest = every.iter().map(|r| r.greatest).fold(1.0, f64::max);
    let ticks = ticks(least, greatest);
    let (from, to) = (ticks[0], ticks[ticks.len() - 1]);
    let x_of = |value: f64| LEFT + PLOT * (value / from).ln() / (to / from).ln();

    let shown = |row: &Row| row.values.iter().flatten().count() as f64;
    let bottom = TOP + rows.iter().map(|row| shown(row) * STEP + GAP).sum::<f64>();
    let mut svg = String::new();
    label(&mut svg, 16.0, 26.0, "start", 16, "bold", title);
    label(
        &mut svg,
        16.0,
        46.0,
        "start",
        12,
        "normal",
        &format!("{plotted}; dot: the median of the layouts; bar: from the least to the greatest"),
    );
    for tick in &ticks {
        let x = x_of(*tick);
        let (colour, width) = if *tick == 1.0 {
            (TEXT, 1.5)
        } else {
            (GREY, 1.0)
        };
        stroke(&mut svg, (x, TOP), (x, bottom), colour, width);
        label(
            &mut svg,
            x,
            bottom + 17.0,
            "middle",
            12,
            "normal",
            &tick.to_string(),
        );
    }
    label(
        &mut svg,
        LEFT + PLOT / 2.0,
        bottom + 38.0,
        "middle",
        12,
        "normal",
        axis,
    );
    label(
        &mut svg,
        x_of(1.0) - 6.0,
        TOP - 5.0,
        "end",
        11,
        "normal",
        "j8 slower",
    );
    label(
        &mut svg,
        x_of(1.0) + 6.0,
        TOP - 5.0,
        "start",
        11,
        "normal",
        "j8 faster",
    );

    let mut y = TOP + GAP / 2.0;
    for (number, row) in rows.iter().enumerate() {
        let height = shown(row) * STEP;
        if number > 0 {
            stroke(
                &mut svg,
                (16.0, y - GAP / 2.0),
                (LEFT + PLOT, y - GAP / 2.0),
                GREY,
                0.5,
            );
        }
        label(
            &mut svg,
            LEFT - 10.0,
            y + height / 2.0 + 4.0,
            "end",
            12,
            "normal",
            &row.name,
        );
        for (series, range) in row.values.iter().enumerate() {
            let Some(range) = range else { continue };
            let (colour, middle) = (COLOURS[series % COLOURS.len()], y + STEP / 2.0);
            stroke(
                &mut svg,
                (x_of(range.least), middle),
                (x_of(range.greatest), middle),
                colour,
                3.0,
            );
            dot(&mut svg, (x_of(range.median), middle), colour);
            y += STEP;
        }
        y += GAP;
    }
    legend(&mut svg, names, LEFT + PLOT + 24.0, TOP + 14.0);
    framed(LEFT + PLOT + 190.0, bottom + 52.0, &svg)
}

/// A line of the cost a byte by the text's bytes.
pub struct Curve {
    pub name: String,
    pub points: Vec<(f64, f64)>,
}

/// Curves on scales of powers: a cost that grows with the text goes up, one that
/// doesn't is level.
pub fn curves(title: &str, x_axis: &str, y_axis: &str, curves: &[Curve]) -> String {
    const LEFT: f64 = 80.0;
    const PLOT: f64 = 560.0;
    const TOP: f64 = 50.0;
    const HEIGHT: f64 = 300.0;
    const BOTTOM: f64 = TOP + HEIGHT;

    let points = || curves.iter().flat_map(|curve| curve.points.iter().copied());
    let (least, greatest) = points().fold((f64::MAX, 0f64), |(a, b), (_, y)| (a.min(y), b.max(y)));
    let y_ticks = ticks(least, greatest);
    let (y_from, y_to) = (y_ticks[0], y_ticks[y_ticks.len() - 1]);
    let (x_least, x_greatest) =
        points().fold((f64::MAX, 0f64), |(a, b), (x, _)| (a.min(x), b.max(x)));
    // A text of a few bytes less than its size belongs to it.
    let (x_from, x_to) = ((x_least * 1.05).log2().floor(), x_greatest.log2().ceil());
    let x_of = |bytes: f64| LEFT + PLOT * (bytes.log2() - x_from) / (x_to - x_from);
    let y_of = |cost: f64| BOTTOM - HEIGHT * (cost / y_from).ln() / (y_to / y_from).ln();

    let mut svg = String::new();
    label(&mut svg, 16.0, 26.0, "start", 16, "bold", title);
    for tick in &y_ticks {
        let y = y_of(*tick);
        stroke(&mut svg, (LEFT, y), (LEFT + PLOT, y), GREY, 1.0);
        label(
            &mut svg,
            LEFT - 8.0,
            y + 4.0,
            "end",
            12,
            "normal",
            &format!("{}", (tick * 1e4).round() / 1e4),
        );
    }
    for power in x_from as u32..=x_to as u32 {
        let (size, x) = (1usize << power, x_of(f64::from(power).exp2()));
        stroke(&mut svg, (x, TOP), (x, BOTTOM), GREY, 0.5);
        let name = bytes(size).replace(" MiB", " Mi").replace(" KiB", " Ki");
        label(&mut svg, x, BOTTOM + 17.0, "middle", 11, "normal", &name);
    }
    label(
        &mut svg,
        LEFT + PLOT / 2.0,
        BOTTOM + 38.0,
        "middle",
        12,
        "normal",
        x_axis,
    );
    let _ = writeln!(
        svg,
        "<text transform=\"translate(24 {:.1}) rotate(-90)\" text-anchor=\"middle\" font-size=\"12\" fill=\"{TEXT}\">{y_axis}</text>",
        TOP + HEIGHT / 2.0
    );
    for (index, curve) in curves.iter().enumerate() {
        let colour = COLOURS[index % COLOURS.len()];
        let at: Vec<(f64, f64)> = curve
            .points
            .iter()
            .map(|(x, y)| (x_of(*x), y_of(*y)))
            .collect();
        for pair in at.windows(2) {
            stroke(&mut svg, pair[0], pair[1], colour, 2.0);
        }
        for point in at {
            dot(&mut svg, point, colour);
        }
    }
    let names: Vec<&str> = curves.iter().map(|curve| curve.name.as_str()).collect();
    legend(&mut svg, &names, LEFT + PLOT + 24.0, TOP + 14.0);
    framed(LEFT + PLOT + 220.0, BOTTOM + 52.0, &svg)
}
