//! What came back as a `Result`, for `?`.
use crate::answer::{Answer, Outcome};
use crate::store::Node;

impl Outcome {
    /// The outcome for a run's five numbers.
    pub(crate) fn told([answer, place, subject, mark, units]: [u32; 5]) -> Outcome {
        Outcome {
            answer: Answer::told(answer, place),
            subject: Node::from_number(subject),
            mark,
            units,
        }
    }

    /// The new subject where the run is done, and the answer otherwise.
    ///
    /// ```
    /// # fn main() -> Result<(), Box<dyn std::error::Error>> {
    /// use marshtrundle::strategy::*;
    /// use marshtrundle::{run, Bindings, Entry, Store, Table};
    /// let mut store = Store::new();
    /// let one = store.node(1, &[])?;
    /// let mut ran = |s| -> Result<_, Box<dyn std::error::Error>> {
    ///     Ok(run(&Table::of(&s)?, &mut store, &mut Bindings::new(), Entry::FIRST, one, 10))
    /// };
    /// assert_eq!(ran(id())?.done()?, one);
    /// assert_eq!(ran(fail())?.done().unwrap_err().number(), 1);
    /// // A pass that finds nothing is no error here, and a pass that is cut off is.
    /// assert_eq!(ran(id())?.found()?, Some(one));
    /// assert_eq!(ran(fail())?.found()?, None);
    /// assert_eq!(ran(rec(|again| again))?.found().unwrap_err().number(), 6);
    /// # Ok(())
    /// # }
    /// ```
    pub fn done(self) -> Result<Node, Answer> {
        match self.answer {
            Answer::Done => Ok(self.subject),
            other => Err(other),
        }
    }

    /// The new subject where the run is done, nothing where it failed, and any other answer as an error.
    pub fn found(self) -> Result<Option<Node>, Answer> {
        if self.answer.is_done_or_failed() {
            Ok(self.done().ok())
        } else {
            Err(self.answer)
        }
    }
}

impl Answer {
    /// True for answers 0 and 1: the strategy came to its end.
    pub fn is_done_or_failed(self) -> bool {
        self.number() <= 1
    }
}
