//! What to do next, for each answer.
use crate::answer::Answer;

impl Answer {
    /// What to do next, in a sentence or two. Empty for done.
    pub fn advice(self) -> &'static str {
        match self.number() {
            0 => "",
            1 => {
                "Often this only says that there was nothing to do. Where there was: a traversal such as bottom_up fails unless its \
                 strategy succeeds on every subterm, so give it attempt(rule); and a variable that is bound already compares. \
                 'explain' shows which match failed where."
            }
            2 => {
                "Look at the limits: a table has 1 to 4,096 entries, a store at most 131,072 nodes, and the room holds the nodes that \
                 are given."
            }
            4 => "Look at that node: a constructor up to 65,535, at most six children, and each child's number below the node's own.",
            5 => {
                "Look at the start, which is a strategy of the table; at the subject, which is a node below the mark; and at the \
                 bindings. A node from before a collection names nothing any more."
            }
            6 => {
                "Give more units. Where they do not help, a loop does not end: repeat(s) needs an s that fails at last. 'explain' shows \
                 where the run goes round."
            }
            7 => {
                "Give more room, up to 131,072 nodes; collect between passes. A walk makes a new node for each node with children, and \
                 walks a shared subterm once for each way to it."
            }
            8 => {
                "A traversal takes some four of the 4,096 levels for each level of the term, so that a list of some 1,023 cells is the \
                 longest: see 'Long lists' in docs/PASSES.md. Or a loop does not end."
            }
            9 => "Correct that line. docs/REFERENCE.md has the lines of a job.",
            10 => "Write that constructor with the number of children that it is declared with, or declare it.",
            11 => "The node was made with another number of children than is declared, or its constructor is not declared.",
            12 => {
                "Bind that variable before it is built. A condition under test or not puts the bindings back, where where_ keeps them; a \
                 scope hides them; and a branch that failed leaves none."
            }
            13..=17 => "Correct that entry of the table, or let the crate's builders lay it out.",
            24 => "Begin the counts anew: a profile of zeros, or zeros in the lent words.",
            25 => "Step on: the run goes on where it was set aside.",
            27 => "Start a run on that work list before it is stepped. At the end of a run the work list is zero again.",
            _ => "docs/REFERENCE.md says what this answer means.",
        }
    }
}
