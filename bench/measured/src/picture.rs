//! The table as a picture: a panel for each call, a line for each set, and on a logarithmic axis of time a mark for the floor, for the proved library, for the submission's two implementations and for the independent
//! program.

use crate::machine::Machine;
use crate::{submission, Call, Row};
use std::fmt::Write;

const WIDTH: f64 = 1000.0;
const LEFT: f64 = 110.0;
const RIGHT: f64 = 810.0;
const TOP: f64 = 150.0;
const PANEL: f64 = 192.0;
const LINE: f64 = 25.0;
/// The axis goes from 10^FIRST to 10^LAST nanoseconds.
const FIRST: i32 = 4;
const LAST: i32 = 9;
const TICKS: [&str; 6] = ["10 µs", "100 µs", "1 ms", "10 ms", "100 ms", "1 s"];

const OURS: &str = "#0072b2";
const FLOOR: &str = "#555555";
const SUBMISSION: &str = "#d55e00";
const INDEPENDENT: &str = "#009e73";

/// The whole picture.
pub fn draw(machine: &Machine, rows: &[Row]) -> String {
    let bottom = TOP + PANEL * Call::ALL.len() as f64;
    let height = bottom + 62.0;
    let mut svg = format!("<svg xmlns=\"http://www.w3.org/2000/svg\" viewBox=\"0 0 {WIDTH} {height}\" font-family=\"sans-serif\" font-size=\"14\">\n");
    let _ = writeln!(svg, "<title>Time of each call, by set</title>\n<rect width=\"{WIDTH}\" height=\"{height}\" fill=\"white\"/>");
    text(&mut svg, 24.0, 34.0, "start", "font-size=\"20\" font-weight=\"bold\"", "Time of each call, by set");
    text(&mut svg, 24.0, 58.0, "start", "fill=\"#444444\"", &format!("Proved library, floor and independent program: {}, at about {:.1} GHz", machine.processor, machine.clock));
    text(&mut svg, 24.0, 78.0, "start", "fill=\"#444444\"", &format!("Submission: its own table of cycles, {}", submission::PROCESSOR));
    legend(&mut svg);
    for (tick, name) in TICKS.iter().enumerate() {
        let x = along(10f64.powi(FIRST + tick as i32));
        let _ = writeln!(svg, "<line x1=\"{x:.1}\" y1=\"{TOP}\" x2=\"{x:.1}\" y2=\"{bottom}\" stroke=\"#dddddd\"/>");
        text(&mut svg, x, bottom + 20.0, "middle", "", name);
    }
    text(&mut svg, (LEFT + RIGHT) / 2.0, bottom + 46.0, "middle", "", "time of one call (logarithmic)");
    for (at, call) in Call::ALL.into_iter().enumerate() {
        panel(&mut svg, TOP + PANEL * at as f64, call, rows);
    }
    svg.push_str("</svg>\n");
    svg
}

/// One call: a line for each set, with our time and its ratio to the floor at the end.
fn panel(svg: &mut String, top: f64, call: Call, rows: &[Row]) {
    let _ = writeln!(svg, "<line x1=\"24\" y1=\"{top}\" x2=\"{}\" y2=\"{top}\" stroke=\"#999999\"/>", WIDTH - 24.0);
    text(svg, 24.0, top + 22.0, "start", "font-weight=\"bold\"", call.name());
    text(svg, WIDTH - 24.0, top + 22.0, "end", "fill=\"#444444\"", "proved library");
    for (line, row) in rows.iter().filter(|row| row.call == call).enumerate() {
        let y = top + 44.0 + LINE * line as f64;
        let set = row.set.number;
        text(svg, LEFT - 14.0, y + 5.0, "end", "", &format!("{set}  {}", row.set.name));
        let (floor, ours) = (along(row.floor()), along(row.time));
        let _ = writeln!(svg, "<line x1=\"{LEFT}\" y1=\"{y}\" x2=\"{RIGHT}\" y2=\"{y}\" stroke=\"#eeeeee\"/>");
        let _ = writeln!(svg, "<line x1=\"{floor:.1}\" y1=\"{y}\" x2=\"{ours:.1}\" y2=\"{y}\" stroke=\"{OURS}\" stroke-width=\"2\"/>");
        diamond(svg, along(submission::generic64(set, call) / submission::CLOCK), y, "white");
        diamond(svg, along(submission::sse2(set, call) / submission::CLOCK), y, SUBMISSION);
        cross(svg, along(row.independent), y);
        bar(svg, floor, y);
        dot(svg, ours, y);
        text(svg, WIDTH - 24.0, y + 5.0, "end", &format!("fill=\"{OURS}\""), &format!("{}, {:.2} × floor", short(row.time), row.time / row.floor()));
    }
}

fn legend(svg: &mut String) {
    let y = 112.0;
    dot(svg, 32.0, y);
    text(svg, 44.0, y + 5.0, "start", "", "proved library");
    bar(svg, 172.0, y);
    text(svg, 182.0, y + 5.0, "start", "", "floor: its permutations alone");
    diamond(svg, 408.0, y, SUBMISSION);
    text(svg, 420.0, y + 5.0, "start", "", "submission, sse2");
    diamond(svg, 562.0, y, "white");
    text(svg, 574.0, y + 5.0, "start", "", "submission, generic64");
    cross(svg, 752.0, y);
    text(svg, 764.0, y + 5.0, "start", "", "independent program");
}

/// Where a time in nanoseconds lies; a time beyond the axis lies at its end.
fn along(time: f64) -> f64 {
    LEFT + (time.log10().min(LAST as f64) - FIRST as f64) / (LAST - FIRST) as f64 * (RIGHT - LEFT)
}

/// A time in the unit that reads best.
fn short(time: f64) -> String {
    match time {
        t if t < 1e6 => format!("{:.0} µs", t / 1e3),
        t if t < 1e7 => format!("{:.2} ms", t / 1e6),
        t => format!("{:.1} ms", t / 1e6),
    }
}

fn dot(svg: &mut String, x: f64, y: f64) {
    let _ = writeln!(svg, "<circle cx=\"{x:.1}\" cy=\"{y}\" r=\"5.5\" fill=\"{OURS}\"/>");
}

fn bar(svg: &mut String, x: f64, y: f64) {
    let _ = writeln!(svg, "<rect x=\"{:.1}\" y=\"{}\" width=\"3\" height=\"16\" fill=\"{FLOOR}\"/>", x - 1.5, y - 8.0);
}

fn diamond(svg: &mut String, x: f64, y: f64, fill: &str) {
    let _ = writeln!(svg, "<path d=\"M{:.1} {y} L{x:.1} {} L{:.1} {y} L{x:.1} {} Z\" fill=\"{fill}\" stroke=\"{SUBMISSION}\" stroke-width=\"1.5\"/>", x - 6.0, y - 6.0, x + 6.0, y + 6.0);
}

fn cross(svg: &mut String, x: f64, y: f64) {
    let _ = writeln!(svg, "<path d=\"M{:.1} {} L{:.1} {} M{:.1} {} L{:.1} {}\" fill=\"none\" stroke=\"{INDEPENDENT}\" stroke-width=\"3\"/>", x - 5.0, y - 5.0, x + 5.0, y + 5.0, x - 5.0, y + 5.0, x + 5.0, y - 5.0);
}

fn text(svg: &mut String, x: f64, y: f64, anchor: &str, words: &str, content: &str) {
    let content = content.replace('&', "&amp;").replace('<', "&lt;");
    let _ = writeln!(svg, "<text x=\"{x:.1}\" y=\"{y:.1}\" text-anchor=\"{anchor}\" {words}>{content}</text>");
}
