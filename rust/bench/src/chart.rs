//! The picture: eight tasks, three bars each, as an SVG.

#![forbid(unsafe_code)]

use crate::engines::ENGINES;
use crate::measure::Measured;
use std::fmt::Write;

const WIDTH: f64 = 960.0;
const HEIGHT: f64 = 440.0;
/// The field of the bars: left, right, top and bottom.
const FIELD: (f64, f64, f64, f64) = (60.0, 940.0, 70.0, 370.0);
const COLOURS: [&str; 3] = ["#1f5fa8", "#a9b0b8", "#e0902a"];

/// The top of the scale, and the step between its lines.
fn scale(greatest: f64) -> (f64, f64) {
    let step = if greatest > 600.0 {
        200.0
    } else if greatest > 300.0 {
        100.0
    } else {
        50.0
    };
    ((greatest / step).ceil().max(1.0) * step, step)
}

/// A piece of text with its middle at x.
fn text(page: &mut String, x: f64, y: f64, size: u32, words: &str) {
    writeln!(
        page,
        "<text x=\"{:.1}\" y=\"{:.1}\" font-size=\"{}\" text-anchor=\"middle\">{}</text>",
        x, y, size, words
    )
    .expect("a string takes all text");
}

/// The picture's text.
pub fn svg(tasks: &[Measured], machine: &str) -> String {
    let (left, right, top, bottom) = FIELD;
    let rates = tasks
        .iter()
        .flat_map(|task| (0..3).map(move |engine| task.rate(engine)));
    let (most, step) = scale(rates.fold(0.0, f64::max));
    let height = |rate: f64| (bottom - top) * rate / most;
    let mut page = String::new();
    writeln!(
        page,
        "<svg xmlns=\"http://www.w3.org/2000/svg\" width=\"{0}\" height=\"{1}\" \
         viewBox=\"0 0 {0} {1}\" font-family=\"sans-serif\" fill=\"#222222\">",
        WIDTH, HEIGHT
    )
    .expect("a string takes all text");
    page.push_str("<rect width=\"100%\" height=\"100%\" fill=\"#ffffff\"/>\n");
    text(
        &mut page,
        WIDTH / 2.0,
        26.0,
        17,
        &format!("Million visits a second, one run on {}", machine),
    );
    for (engine, colour) in COLOURS.iter().enumerate() {
        let x = WIDTH / 2.0 - 180.0 + 130.0 * engine as f64;
        writeln!(
            page,
            "<rect x=\"{:.1}\" y=\"38\" width=\"12\" height=\"12\" fill=\"{}\"/>\n\
             <text x=\"{:.1}\" y=\"49\" font-size=\"13\">{}</text>",
            x,
            colour,
            x + 18.0,
            ENGINES[engine].name
        )
        .expect("a string takes all text");
    }
    let mut line = 0.0;
    while line <= most {
        let y = bottom - height(line);
        writeln!(
            page,
            "<line x1=\"{:.1}\" y1=\"{:.1}\" x2=\"{:.1}\" y2=\"{:.1}\" stroke=\"#dddddd\"/>\n\
             <text x=\"{:.1}\" y=\"{:.1}\" font-size=\"12\" text-anchor=\"end\">{:.0}</text>",
            left,
            y,
            right,
            y,
            left - 8.0,
            y + 4.0,
            line
        )
        .expect("a string takes all text");
        line += step;
    }
    let group = (right - left) / tasks.len() as f64;
    let bar = group * 0.27;
    for (number, task) in tasks.iter().enumerate() {
        let middle = left + group * (number as f64 + 0.5);
        for (engine, colour) in COLOURS.iter().enumerate() {
            let rate = task.rate(engine);
            let x = middle + bar * (engine as f64 - 1.5);
            writeln!(
                page,
                "<rect x=\"{:.1}\" y=\"{:.1}\" width=\"{:.1}\" height=\"{:.1}\" fill=\"{}\"/>",
                x,
                bottom - height(rate),
                bar - 2.0,
                height(rate),
                colour
            )
            .expect("a string takes all text");
            let y = bottom - height(rate) - 4.0;
            text(
                &mut page,
                x + bar / 2.0 - 1.0,
                y,
                11,
                &format!("{:.0}", rate),
            );
        }
        for (row, word) in task.name.split(' ').enumerate() {
            let y = bottom + 20.0 + 16.0 * row as f64;
            text(&mut page, middle, y, 13, word);
        }
    }
    page.push_str("</svg>\n");
    page
}
