//! Names for constructors, variables and entries, and the file that gives them.
use crate::bindings::VARIABLES;
use crate::store::{Node, Store};
use crate::table::Table;
use std::borrow::Cow;
use std::collections::BTreeMap;
use std::fmt;

/// Names for what the library knows by number. What has no name is shown by its number: `5` for a constructor, `v0` for a
/// variable, `s4` for an entry.
///
/// A file of names has a line for each: what it is, its number, its name. Words are parted by blanks or tabs. A line that begins
/// with `#` is a comment, and blank lines do no harm.
///
/// ```
/// use marshtrundle::show::Names;
/// let names = Names::read("# a pair\nconstructor 5 PAIR\nvariable 0 x\nentry 0 swap\n").unwrap();
/// assert_eq!(names.constructor(5), "PAIR");
/// assert_eq!(names.variable(1), "v1");
/// assert_eq!(
///     Names::read("constructor 5 PAIR\nconstructor 6 PAIR\n").unwrap_err().to_string(),
///     "line 2: 'PAIR' names another constructor too"
/// );
/// ```
#[derive(Clone, Debug, Default, PartialEq, Eq)]
pub struct Names {
    constructors: BTreeMap<u32, String>,
    variables: BTreeMap<u32, String>,
    entries: BTreeMap<u32, String>,
}

/// What is wrong with a file of names, or with the text of a term, and on which line.
#[derive(Clone, Debug, PartialEq, Eq)]
pub struct NamesFault {
    /// The line, from 1.
    pub line: usize,
    /// What is wrong with it.
    pub what: String,
}

impl fmt::Display for NamesFault {
    fn fmt(&self, f: &mut fmt::Formatter<'_>) -> fmt::Result {
        write!(f, "line {}: {}", self.line, self.what)
    }
}

impl std::error::Error for NamesFault {}

/// Whether a name can have this sign inside.
fn is_inside(sign: char) -> bool {
    sign.is_alphanumeric() || "_'.-".contains(sign)
}

/// A name can stand in a term: it has no blanks, brackets, commas or signs of the notation.
fn is_name(text: &str) -> bool {
    text.starts_with(|c: char| c.is_alphabetic() || c == '_') && text.chars().all(is_inside)
}

impl Names {
    /// No names.
    pub fn new() -> Names {
        Names::default()
    }

    /// The names of a file's text.
    pub fn read(text: &str) -> Result<Names, NamesFault> {
        let mut names = Names::new();
        for (line, text) in (1..).zip(text.lines()) {
            let wrong = |what: String| NamesFault { line, what };
            let words: Vec<&str> = text.split_whitespace().collect();
            match words[..] {
                [] => {}
                [first, ..] if first.starts_with('#') => {}
                [what, number, name] => {
                    let number = number
                        .parse()
                        .map_err(|_| wrong(format!("'{number}' is no number")))?;
                    names.add(what, number, name).map_err(wrong)?;
                }
                _ => {
                    let form = "'constructor', 'variable' or 'entry', a number and a name";
                    return Err(wrong(format!("expected {form}")));
                }
            }
        }
        Ok(names)
    }

    fn add(&mut self, what: &str, number: u32, name: &str) -> Result<(), String> {
        let (group, most) = match what {
            "constructor" => (&mut self.constructors, 65_535),
            "variable" => (&mut self.variables, VARIABLES as u32 - 1),
            "entry" => (&mut self.entries, 4_095),
            _ => {
                return Err(format!(
                    "'{what}' is none of 'constructor', 'variable', 'entry'"
                ))
            }
        };
        if number > most {
            return Err(format!("{what} {number} is above {most}"));
        }
        if !is_name(name) {
            return Err(format!(
                "'{name}' is no name: a letter, then letters, digits and _ ' . -"
            ));
        }
        if group.values().any(|other| other == name) {
            return Err(format!("'{name}' names another {what} too"));
        }
        if group.insert(number, name.to_owned()).is_some() {
            return Err(format!("{what} {number} has a name already"));
        }
        Ok(())
    }

    /// Adds the names that a [`TableBuilder`](crate::TableBuilder) gave its strategies. An entry that has a name keeps it.
    #[must_use]
    pub fn with_table(mut self, table: &Table) -> Names {
        for (name, entry) in table.names() {
            self.entries
                .entry(entry.number())
                .or_insert_with(|| name.to_owned());
        }
        self
    }

    /// Makes the term of a text in a store: `PAIR(A, 7)`, with names or numbers for constructors. [`Show::term`](crate::show::Show::term)
    /// writes such text, where nothing is shared or cut.
    ///
    /// ```
    /// # fn main() -> Result<(), Box<dyn std::error::Error>> {
    /// use marshtrundle::show::Names;
    /// use marshtrundle::Store;
    /// let names = Names::read("constructor 5 PAIR")?;
    /// let mut store = Store::new();
    /// let term = names.read_term(&mut store, "PAIR(1, PAIR(2, 3))")?;
    /// assert_eq!(store.term(term).unwrap().to_string(), "5(1, 5(2, 3))");
    /// assert_eq!(
    ///     names.read_term(&mut store, "PAIR(1, MAP)").unwrap_err().to_string(),
    ///     "line 1: 'MAP' names no constructor"
    /// );
    /// # Ok(())
    /// # }
    /// ```
    pub fn read_term(&self, store: &mut Store, text: &str) -> Result<Node, NamesFault> {
        let mut open: Vec<(u16, Vec<Node>)> = vec![];
        let mut whole = None;
        let mut line = 1;
        // Whether a term is to come next.
        let mut is_next = true;
        let mut rest = text.char_indices().peekable();
        while let Some((at, sign)) = rest.next() {
            let fault = |what| NamesFault { line, what };
            let mut done = None;
            match sign {
                '\n' | ' ' | '\t' | '\r' => {}
                ',' if !is_next && !open.is_empty() => is_next = true,
                ')' if !is_next && !open.is_empty() => done = open.pop(),
                _ if is_next && is_inside(sign) => {
                    let mut end = at + sign.len_utf8();
                    while let Some((at, sign)) = rest.next_if(|&(_, sign)| is_inside(sign)) {
                        end = at + sign.len_utf8();
                    }
                    let constructor = self.constructor_of(&text[at..end]).map_err(fault)?;
                    if rest.next_if(|&(_, sign)| sign == '(').is_some() {
                        open.push((constructor, vec![]));
                    } else {
                        done = Some((constructor, vec![]));
                    }
                }
                _ => return Err(fault(format!("'{sign}' does not belong there"))),
            }
            if let Some((constructor, children)) = done {
                let node = store.node(constructor, &children);
                let node = node.map_err(|error| fault(error.to_string()))?;
                is_next = false;
                match open.last_mut() {
                    Some((_, children)) => children.push(node),
                    None => whole = Some(node),
                }
            }
            line += usize::from(sign == '\n');
        }
        match whole {
            Some(node) if open.is_empty() => Ok(node),
            _ => Err(NamesFault {
                line,
                what: "the term is not whole".to_owned(),
            }),
        }
    }

    /// The constructor of a name or a number.
    fn constructor_of(&self, word: &str) -> Result<u16, String> {
        if let Ok(number) = word.parse() {
            return Ok(number);
        }
        let named = self.constructors.iter().find(|(_, name)| *name == word);
        let number = named.and_then(|(&number, _)| u16::try_from(number).ok());
        number.ok_or_else(|| format!("'{word}' names no constructor"))
    }

    /// A constructor's name, or its number.
    pub fn constructor(&self, number: u32) -> Cow<'_, str> {
        shown(&self.constructors, number, "")
    }

    /// A variable's name, or `v` and its number.
    pub fn variable(&self, number: u32) -> Cow<'_, str> {
        shown(&self.variables, number, "v")
    }

    /// An entry's name, or `s` and its number.
    pub fn entry(&self, number: u32) -> Cow<'_, str> {
        shown(&self.entries, number, "s")
    }

    /// Whether the entry has a name of its own.
    pub fn names_entry(&self, number: u32) -> bool {
        self.entries.contains_key(&number)
    }
}

fn shown<'a>(group: &'a BTreeMap<u32, String>, number: u32, before: &str) -> Cow<'a, str> {
    match group.get(&number) {
        Some(name) => Cow::Borrowed(name),
        None => Cow::Owned(format!("{before}{number}")),
    }
}
