//! The numbers with which a call refuses: document 01, "Numbers a call can return".
use core::error::Error;
use core::fmt;

/// Declares the numbers once: a name, the number, and its row's words.
macro_rules! numbers {
    ($($name:ident = $number:literal, $words:literal;)*) => {
        /// Why a call refused. `number as u8` is document 01's number, whose row's words it displays.
        #[derive(Clone, Copy, Debug, PartialEq, Eq, PartialOrd, Ord, Hash)]
        #[non_exhaustive]
        #[repr(u8)]
        pub enum Number {
            $(#[doc = concat!(stringify!($number), ": ", $words, ".")] $name = $number,)*
        }

        impl Number {
            /// Every number, in the order of the table.
            pub const ALL: &[Number] = &[$(Number::$name),*];

            /// The words of its row.
            const fn words(self) -> &'static str {
                match self { $(Number::$name => $words,)* }
            }
        }
    };
}

numbers! {
    StateNotSound = 1, "the state handed in is not sound";
    NotARecord = 2, "the record breaks the layout or a limit";
    StartWithoutData = 3, "a start without tree data";
    StartNotRoot = 4, "a start for a tree other than ROOT";
    ListedTwice = 5, "a node listed twice";
    TreeNotHeld = 6, "tree data for a tree that no graft holds, not ROOT";
    TreeWithoutData = 7, "no tree data for a tree that does not exist, not ROOT";
    TooManyTrees = 8, "a new tree id while 32 numbers are taken";
    ChildNamedTwice = 9, "a child named twice in the batch";
    GraftWithChildren = 10, "a graft node with children";
    GraftOfRoot = 11, "a graft of ROOT";
    SecondGraft = 12, "a second graft of one tree";
    NodesWithoutPlace = 13, "listed nodes left without a place";
    ChildrenAbsent = 14, "named children neither present nor listed";
    FocusOnEmptyGraft = 15, "the focus chain meets a graft whose tree does not exist";
    RootAbsent = 16, "the root is absent";
    FocusAbsent = 17, "the effective focus is absent";
    ChangedAndRemoved = 18, "a node both added or updated, and removed";
    OutcomeNotSound = 19, "the links or trees of the outcome are not sound";
    TooManyNodes = 20, "more than 256 nodes in the outcome";
    ListTooShort = 21, "a lent list too short for what it should hold";
    NodeAbsent = 22, "the node asked about is not in the state";
}

/// Whether the library accepted: 0, or why not. It is proved to answer 0 to 22; any other number, of a library that is
/// not the proved one, is taken for a state that cannot be trusted.
pub(crate) fn accepted(number: u32) -> Result<(), Number> {
    if number == 0 {
        return Ok(());
    }
    Err(Number::try_from(number).unwrap_or(Number::StateNotSound))
}

impl fmt::Display for Number {
    fn fmt(&self, f: &mut fmt::Formatter<'_>) -> fmt::Result {
        f.write_str(self.words())
    }
}

impl Error for Number {}

impl From<Number> for u8 {
    fn from(number: Number) -> Self {
        number as u8
    }
}

impl From<Number> for u32 {
    fn from(number: Number) -> Self {
        number as u32
    }
}

impl TryFrom<u32> for Number {
    type Error = NoSuchNumber;

    /// The number of that value. 0, which accepts, is none.
    fn try_from(value: u32) -> Result<Self, NoSuchNumber> {
        Number::ALL.iter().copied().find(|n| *n as u32 == value).ok_or(NoSuchNumber(value))
    }
}

/// A value with which no call refuses.
#[derive(Clone, Copy, Debug, PartialEq, Eq)]
pub struct NoSuchNumber(pub u32);

impl fmt::Display for NoSuchNumber {
    fn fmt(&self, f: &mut fmt::Formatter<'_>) -> fmt::Result {
        write!(f, "no call refuses with {}", self.0)
    }
}

impl Error for NoSuchNumber {}
