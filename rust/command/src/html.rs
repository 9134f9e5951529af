//! The story of a run as a page of HTML: a tree that is folded, with nothing fetched from elsewhere.
use crate::explain::{outcome, End, Visit};

const HEAD: &str = "<!DOCTYPE html>
<html lang=\"en\">
<head>
<meta charset=\"utf-8\">
<title>A run of Marshtrundle</title>
<style>
body { font-family: sans-serif; margin: 2em; max-width: 110em; }
pre { background: #f4f4f4; padding: 1em; white-space: pre-wrap; }
details, p { margin: 0.1em 0 0.1em 1.2em; }
summary, p { font-family: monospace; }
.success { color: #1b5e20; } .failure { color: #8d1b1b; } .cut { color: #9a5b00; } .undone { color: #555; font-style: italic; }
</style>
</head>
<body>
<h1>A run of Marshtrundle</h1>
";

const LEGEND: &str = "<p>A line is a visit: the strategy, the term, and what it came to. Click a line to see what it asked for. Green \
succeeded, red failed, brown was under way at the end; 'undone' lists the bindings that were put back when a failure was caught.</p>\n";

fn escaped(text: &str) -> String {
    text.replace('&', "&amp;")
        .replace('<', "&lt;")
        .replace('>', "&gt;")
}

/// The page. A visit with visits inside is a fold; the first levels, and what was under way, are open.
pub(crate) fn page(head: &str, visits: &[Visit]) -> String {
    let mut text = format!("{HEAD}<pre>{}</pre>\n{LEGEND}", escaped(head));
    // The folds that are open, each with what was undone when it ended.
    let mut folds: Vec<(usize, &str)> = vec![];
    for (k, visit) in visits.iter().enumerate() {
        close(&mut text, &mut folds, visit.level);
        let class = match visit.end {
            End::Success(_) => "success",
            End::Failure => "failure",
            End::UnderWay => "cut",
        };
        let line = format!(
            "{} <i>on</i> {} <span class=\"{class}\">{}</span>",
            escaped(&visit.strategy),
            escaped(&visit.term),
            escaped(&outcome(visit))
        );
        if visits
            .get(k + 1)
            .map_or(false, |next| next.level > visit.level)
        {
            let is_open = visit.level < 2 || matches!(visit.end, End::UnderWay);
            let open = if is_open { " open" } else { "" };
            text.push_str(&format!("<details{open}><summary>{line}</summary>\n"));
            folds.push((visit.level, &visit.undone));
        } else {
            text.push_str(&format!("<p>{line}</p>\n"));
            undone(&mut text, &visit.undone);
        }
    }
    close(&mut text, &mut folds, 0);
    text.push_str("</body>\n</html>\n");
    text
}

fn undone(text: &mut String, undone: &str) {
    if !undone.is_empty() {
        text.push_str(&format!(
            "<p class=\"undone\">undone: {}</p>\n",
            escaped(undone)
        ));
    }
}

/// Ends the folds of this level and deeper.
fn close(text: &mut String, folds: &mut Vec<(usize, &str)>, level: usize) {
    while let Some((_, bindings)) = folds.last().copied().filter(|&(own, _)| own >= level) {
        folds.pop();
        text.push_str("</details>\n");
        undone(text, bindings);
    }
}
