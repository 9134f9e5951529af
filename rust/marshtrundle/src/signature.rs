//! The signature: the child count that each constructor is declared with.
use crate::answer::BuildError;

/// The word of a constructor that is not declared.
const UNDECLARED: u32 = 7;

/// The declared constructors, each with its child count.
///
/// Lend it to a builder, and a wrong count is refused where it is written; lend it to [`run_signed`](crate::run_signed), and a
/// table or a store that does not obey it is refused. A constructor that is not declared may not be used at all.
///
/// ```
/// # fn main() -> Result<(), marshtrundle::BuildError> {
/// use marshtrundle::{strategy::*, BuildError, Signature, TableBuilder, VARS};
/// const CALL: u16 = 9;
/// let signature = Signature::of(&[(CALL, 3)])?;
/// let [f, x, ..] = VARS;
/// // The front end makes calls with three children. This one has two, and would never match.
/// let mut builder = TableBuilder::new();
/// builder.declare(&signature);
/// builder.add("inline", match_(con(CALL, [var(f), var(x)])));
/// assert_eq!(
///     builder.build().unwrap_err(),
///     BuildError::WrongCount { constructor: CALL, count: 2, declared: Some(3) },
/// );
/// # Ok(())
/// # }
/// ```
#[derive(Clone, Debug, Default, PartialEq, Eq)]
pub struct Signature {
    words: Vec<u32>,
}

impl Signature {
    /// A signature that declares nothing.
    pub fn new() -> Signature {
        Signature::default()
    }

    /// The signature of these constructors and counts.
    pub fn of(declared: &[(u16, usize)]) -> Result<Signature, BuildError> {
        let mut signature = Signature::new();
        for &(constructor, count) in declared {
            signature.declare(constructor, count)?;
        }
        Ok(signature)
    }

    /// The signature with these words. They may be anything: a run says what is wrong.
    pub fn from_words(words: impl Into<Vec<u32>>) -> Signature {
        Signature {
            words: words.into(),
        }
    }

    /// The signature's words: one for each constructor from 0 on, its count, or 7 where it is not declared.
    pub fn words(&self) -> &[u32] {
        &self.words
    }

    /// Declares a constructor with a count of at most 6. To declare it again with the same count changes nothing.
    pub fn declare(
        &mut self,
        constructor: u16,
        count: usize,
    ) -> Result<&mut Signature, BuildError> {
        if count > 6 {
            return Err(BuildError::TooManyChildren(count));
        }
        match self.count(constructor) {
            Some(declared) if declared != count => {
                return Err(BuildError::DeclaredTwice(constructor));
            }
            _ => {}
        }
        let at = usize::from(constructor);
        if self.words.len() <= at {
            self.words.resize(at + 1, UNDECLARED);
        }
        self.words[at] = count as u32;
        Ok(self)
    }

    /// The count that a constructor is declared with.
    pub fn count(&self, constructor: u16) -> Option<usize> {
        match self.words.get(usize::from(constructor)) {
            Some(&count) if count < UNDECLARED => Some(count as usize),
            _ => None,
        }
    }

    /// Nothing where the constructor is declared with this count, and what is wrong otherwise.
    pub(crate) fn obeyed(&self, constructor: u16, count: usize) -> Result<(), BuildError> {
        let declared = self.count(constructor);
        if declared == Some(count) {
            return Ok(());
        }
        Err(BuildError::WrongCount {
            constructor,
            count,
            declared,
        })
    }
}
