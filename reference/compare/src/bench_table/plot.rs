//! The plot: the time of whole runs against E for each M, and the ratio of
//! every call.

use std::fmt::Write;

use super::measure::Measured;
use super::runs::{WholeRun, EVENTS, SIZES_AND_STYLE, SLOTS};

/// The width of the plot, and where its parts lie.
const WIDTH: f64 = 760.0;
const LEFT: f64 = 70.0;
const RIGHT: f64 = 640.0;
const TOP: f64 = 64.0;
const BOTTOM: f64 = 344.0;
const BARS_TOP: f64 = 430.0;
const BAR: f64 = 20.0;
const BARS_LEFT: f64 = 300.0;
const BARS_RIGHT: f64 = 660.0;

/// Plain colours, for viewers that know no variables, and others for a dark ground.
const STYLE: &str = "\
<style>
.ground { fill: #ffffff; }
text { fill: #1f2328; font: 12px sans-serif; }
.title { font-weight: bold; font-size: 14px; }
.end { text-anchor: end; }
.middle { text-anchor: middle; }
.grid { stroke: #d0d7de; }
.one { stroke: #1f2328; stroke-dasharray: 2 3; }
.line { fill: none; stroke-width: 2; }
.second { stroke-dasharray: 6 4; }
.bar { fill: #0969da; }
.whisker { stroke: #1f2328; stroke-width: 2; }
.m0 { stroke: #0969da; } .m1 { stroke: #1a7f37; } .m2 { stroke: #bc4c00; }
@media (prefers-color-scheme: dark) {
.ground { fill: #0d1117; }
text { fill: #e6edf3; }
.grid { stroke: #30363d; }
.one, .whisker { stroke: #e6edf3; }
.bar { fill: #58a6ff; }
.m0 { stroke: #58a6ff; } .m1 { stroke: #3fb950; } .m2 { stroke: #f0883e; }
}
</style>
";

/// The whole plot.
pub fn svg(runs: &[WholeRun], others: &[(String, Measured)], noise: &Measured) -> String {
    let bars = bars_of(runs, others);
    let height = BARS_TOP + BAR * bars.len() as f64 + 60.0;
    let mut svg = format!(
        "<svg xmlns=\"http://www.w3.org/2000/svg\" viewBox=\"0 0 {WIDTH} {height}\" \
         width=\"{WIDTH}\" height=\"{height}\" role=\"img\">\n\
         <title>Proved calls beside the second program</title>\n{STYLE}\
         <rect class=\"ground\" width=\"100%\" height=\"100%\"/>\n"
    );
    draw_times(&mut svg, runs);
    draw_bars(&mut svg, &bars, noise);
    svg.push_str("</svg>\n");
    svg
}

fn text(svg: &mut String, class: &str, x: f64, y: f64, words: &str) {
    writeln!(
        svg,
        "<text class=\"{class}\" x=\"{x:.1}\" y=\"{y:.1}\">{words}</text>"
    )
    .expect("a string takes every text");
}

fn line(svg: &mut String, class: &str, [x1, y1, x2, y2]: [f64; 4]) {
    writeln!(
        svg,
        "<line class=\"{class}\" x1=\"{x1:.1}\" y1=\"{y1:.1}\" x2=\"{x2:.1}\" y2=\"{y2:.1}\"/>"
    )
    .expect("a string takes every text");
}

// Times of whole runs, both axes logarithmic.

/// The powers of ten of microseconds that hold every time.
fn decades(runs: &[WholeRun]) -> [f64; 2] {
    let times = runs
        .iter()
        .flat_map(|run| [run.measured.proved_us(), run.measured.second_us()]);
    let logs: Vec<f64> = times.map(f64::log10).collect();
    let least = logs.iter().copied().fold(f64::INFINITY, f64::min);
    let greatest = logs.iter().copied().fold(f64::NEG_INFINITY, f64::max);
    [least.floor(), greatest.ceil()]
}

fn x_of(e: usize) -> f64 {
    let ends = [EVENTS[0], EVENTS[EVENTS.len() - 1]].map(|e| (e as f64).log10());
    LEFT + (RIGHT - LEFT) * ((e as f64).log10() - ends[0]) / (ends[1] - ends[0])
}

fn y_of(us: f64, [least, greatest]: [f64; 2]) -> f64 {
    BOTTOM - (BOTTOM - TOP) * (us.log10() - least) / (greatest - least)
}

fn draw_times(svg: &mut String, runs: &[WholeRun]) {
    let ends = decades(runs);
    text(
        svg,
        "title",
        LEFT,
        24.0,
        "Time of a whole run in microseconds against its events E",
    );
    let legend = format!("{SIZES_AND_STYLE}; solid: proved, dashed: second program; best times");
    text(svg, "", LEFT, 44.0, &legend);
    for decade in ends[0] as i32..=ends[1] as i32 {
        let us = 10f64.powi(decade);
        let y = y_of(us, ends);
        line(svg, "grid", [LEFT, y, RIGHT, y]);
        text(svg, "end", LEFT - 8.0, y + 4.0, &us.to_string());
    }
    for e in EVENTS {
        line(svg, "grid", [x_of(e), TOP, x_of(e), BOTTOM]);
        text(svg, "middle", x_of(e), BOTTOM + 18.0, &format!("E = {e}"));
    }
    for (place, m) in SLOTS.iter().enumerate() {
        let of_m: Vec<&WholeRun> = runs.iter().filter(|run| run.m == *m).collect();
        draw_line(
            svg,
            &format!("line m{place}"),
            &of_m,
            Measured::proved_us,
            ends,
        );
        let second = format!("line second m{place}");
        draw_line(svg, &second, &of_m, Measured::second_us, ends);
        // A key of its own height for each M, beside the lines.
        let y = TOP + 20.0 * place as f64 + 8.0;
        line(
            svg,
            &format!("line m{place}"),
            [RIGHT + 16.0, y, RIGHT + 40.0, y],
        );
        text(svg, "", RIGHT + 46.0, y + 4.0, &format!("M = {m}"));
    }
}

fn draw_line(
    svg: &mut String,
    class: &str,
    runs: &[&WholeRun],
    time: fn(&Measured) -> f64,
    ends: [f64; 2],
) {
    let points: Vec<String> = runs
        .iter()
        .map(|run| format!("{:.1},{:.1}", x_of(run.e), y_of(time(&run.measured), ends)))
        .collect();
    writeln!(
        svg,
        "<polyline class=\"{class}\" points=\"{}\"/>",
        points.join(" ")
    )
    .expect("a string takes every text");
}

// Ratios.

/// A bar: its name, the ratio, and the ratio's spread.
struct Bar {
    name: String,
    ratio: f64,
    ends: [f64; 2],
}

fn bars_of(runs: &[WholeRun], others: &[(String, Measured)]) -> Vec<Bar> {
    let bar = |name: String, measured: &Measured| Bar {
        name,
        ratio: measured.ratio(),
        ends: measured.ends(),
    };
    let whole = runs.iter().map(|run| {
        bar(
            format!("whole run, M = {}, E = {}", run.m, run.e),
            &run.measured,
        )
    });
    let others = others
        .iter()
        .map(|(name, measured)| bar(name.clone(), measured));
    whole.chain(others).collect()
}

fn draw_bars(svg: &mut String, bars: &[Bar], noise: &Measured) {
    let greatest = bars
        .iter()
        .map(|bar| bar.ends[1])
        .fold(1.0, f64::max)
        .ceil();
    let x = |ratio: f64| BARS_LEFT + (BARS_RIGHT - BARS_LEFT) * ratio / greatest;
    let bottom = BARS_TOP + BAR * bars.len() as f64;
    text(
        svg,
        "title",
        LEFT,
        BARS_TOP - 32.0,
        "Time of the proved call / time of the second program",
    );
    let words = format!(
        "best of 40 rounds; thin line: spread over 5 repetitions; second program against itself: {}",
        noise.ratios()
    );
    text(svg, "", LEFT, BARS_TOP - 14.0, &words);
    for tick in 0..=greatest as u32 {
        let at = x(f64::from(tick));
        let class = if tick == 1 { "one" } else { "grid" };
        line(svg, class, [at, BARS_TOP, at, bottom]);
        text(svg, "middle", at, bottom + 18.0, &tick.to_string());
    }
    for (place, bar) in bars.iter().enumerate() {
        let y = BARS_TOP + BAR * place as f64;
        let middle = y + BAR / 2.0;
        text(svg, "end", BARS_LEFT - 8.0, middle + 4.0, &bar.name);
        writeln!(
            svg,
            "<rect class=\"bar\" x=\"{BARS_LEFT:.1}\" y=\"{:.1}\" width=\"{:.1}\" height=\"{:.1}\"/>",
            y + 4.0,
            x(bar.ratio) - BARS_LEFT,
            BAR - 8.0
        )
        .expect("a string takes every text");
        line(
            svg,
            "whisker",
            [x(bar.ends[0]), middle, x(bar.ends[1]), middle],
        );
        text(
            svg,
            "",
            BARS_RIGHT + 16.0,
            middle + 4.0,
            &format!("{:.2}", bar.ratio),
        );
    }
}
