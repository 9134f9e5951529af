//! The words of the command line.

/// What is asked for.
pub(crate) struct Options {
    pub(crate) subcommand: Subcommand,
    pub(crate) file: String,
    pub(crate) names: Option<String>,
    pub(crate) units: Option<u32>,
    pub(crate) depth: Option<usize>,
    pub(crate) length: Option<usize>,
}

pub(crate) enum Subcommand {
    Run {
        print: bool,
        difference: bool,
        steps: Option<u32>,
        profile: Option<Profiled>,
    },
    Check,
    Free,
    Print {
        entries: bool,
        graph: Option<Graph>,
    },
    Explain {
        html: bool,
        all: bool,
    },
    Rules {
        onto: Option<String>,
        back: bool,
    },
}

/// How a profile is written.
#[derive(Clone, Copy, PartialEq, Eq)]
pub(crate) enum Profiled {
    Text,
    Picture,
}

#[derive(Clone, Copy)]
pub(crate) enum Graph {
    Term,
    Table,
}

impl Options {
    /// The options that the words say; what is wrong with them otherwise.
    pub(crate) fn of(words: &[String]) -> Result<Options, String> {
        let mut words = words.iter().map(String::as_str);
        let name = words.next().ok_or("no subcommand")?;
        let subcommand = match name {
            "run" => Subcommand::Run {
                print: false,
                difference: false,
                steps: None,
                profile: None,
            },
            "check" => Subcommand::Check,
            "free" => Subcommand::Free,
            "print" => Subcommand::Print {
                entries: false,
                graph: None,
            },
            "explain" => Subcommand::Explain {
                html: false,
                all: false,
            },
            "rules" => Subcommand::Rules {
                onto: None,
                back: false,
            },
            _ => return Err(format!("'{name}' is no subcommand")),
        };
        let mut options = Options {
            subcommand,
            file: String::new(),
            names: None,
            units: None,
            depth: None,
            length: None,
        };
        let mut files = vec![];
        let mut svg = false;
        while let Some(word) = words.next() {
            let mut value = || words.next().ok_or(format!("{word} needs a value"));
            match (word, &mut options.subcommand) {
                ("--print", Subcommand::Run { print, .. }) => *print = true,
                ("--difference", Subcommand::Run { difference, .. }) => *difference = true,
                ("--steps", Subcommand::Run { steps, .. }) => {
                    *steps = Some(number(word, value()?)?);
                    if *steps == Some(0) {
                        return Err(
                            "--steps is 1 or more: a step of no visits does nothing".to_owned()
                        );
                    }
                }
                ("--profile", Subcommand::Run { profile, .. }) => *profile = Some(Profiled::Text),
                ("--svg", Subcommand::Run { .. }) => svg = true,
                ("--entries", Subcommand::Print { entries, .. }) => *entries = true,
                ("--html", Subcommand::Explain { html, .. }) => *html = true,
                ("--all", Subcommand::Explain { all, .. }) => *all = true,
                ("--graph", Subcommand::Print { graph, .. }) => {
                    *graph = Some(match value()? {
                        "term" => Graph::Term,
                        "table" => Graph::Table,
                        other => {
                            return Err(format!("--graph is 'term' or 'table', not '{other}'"))
                        }
                    });
                }
                ("--onto", Subcommand::Rules { onto, .. }) => *onto = Some(value()?.to_owned()),
                ("--back", Subcommand::Rules { back, .. }) => *back = true,
                (_, Subcommand::Rules { .. }) if word != "-" && word.starts_with('-') => {
                    return Err(format!("'{name}' has no option {word}"))
                }
                ("--names", _) => options.names = Some(value()?.to_owned()),
                ("--units", _) => options.units = Some(number(word, value()?)?),
                ("--depth", _) => options.depth = Some(number(word, value()?)?),
                ("--length", _) => options.length = Some(number(word, value()?)?),
                ("--full", _) => {
                    options.depth = Some(usize::MAX);
                    options.length = Some(usize::MAX);
                }
                ("-", _) => files.push(word),
                _ if word.starts_with('-') => return Err(format!("'{name}' has no option {word}")),
                _ => files.push(word),
            }
        }
        match files[..] {
            [file] => options.file = file.to_owned(),
            [] => return Err("no FILE".to_owned()),
            [_, other, ..] => return Err(format!("'{other}' is one word too many")),
        }
        if let Subcommand::Run {
            print,
            difference,
            steps,
            profile,
        } = &mut options.subcommand
        {
            if profile.is_some() && steps.is_some() {
                return Err("--profile and --steps do not go together".to_owned());
            }
            if svg && profile.is_none() {
                return Err("--svg goes with --profile".to_owned());
            }
            if svg && (*print || *difference) {
                return Err("--svg writes a picture, and no other text goes with it".to_owned());
            }
            if svg {
                *profile = Some(Profiled::Picture);
            }
        }
        if let Subcommand::Rules {
            onto: Some(onto),
            back,
        } = &options.subcommand
        {
            if *back {
                return Err("--onto and --back do not go together".to_owned());
            }
            if onto == "-" && options.file == "-" {
                return Err("standard input is one file, not two".to_owned());
            }
        }
        Ok(options)
    }
}

fn number<N: std::str::FromStr>(word: &str, text: &str) -> Result<N, String> {
    text.parse()
        .map_err(|_| format!("{word} is a number, and '{text}' is none or too large"))
}
