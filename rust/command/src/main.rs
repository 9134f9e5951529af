//! The program: words in, texts and an exit status out.
#![forbid(unsafe_code)]

use std::io::Write;
use std::process::ExitCode;

fn main() -> ExitCode {
    let words: Vec<String> = std::env::args().skip(1).collect();
    // What a run in steps shows while it goes on. Nobody may be there to see it.
    let said = command::command(&words, &mut |shown| {
        let mut error = std::io::stderr();
        let _ = error
            .write_all(shown.as_bytes())
            .and_then(|()| error.flush());
    });
    let written = std::io::stdout()
        .write_all(said.output.as_bytes())
        .and_then(|()| std::io::stderr().write_all(said.error.as_bytes()));
    match written {
        Ok(()) => ExitCode::from(said.status),
        Err(_) => ExitCode::from(74),
    }
}
