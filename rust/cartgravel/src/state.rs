//! The state, its calls and the questions about it as a whole: document 01, "The update".
use crate::node::NodeRef;
use crate::number::{Number, accepted};
use crate::reason::Explanation;
use crate::report::{Report, present};
use crate::{FullNodeId, STATE_BYTES, TreeId, TreeIndex, WAY_WORDS, sys};
use core::error::Error;
use core::fmt;

/// The trees of a terminal's screen, at most [`NODES`](crate::NODES) nodes.
///
/// A state is [`STATE_BYTES`] long and lives where its owner puts it, on the stack, in a `Box` or in a `static`. The
/// calls change it in place, keep no pointer and allocate nothing; each needs [`STACK`](crate::STACK) bytes of stack,
/// and [`start`](State::start), which answers a state by value, [`START_STACK`](crate::START_STACK).
///
/// A state that a start or a batch has left has one form in memory, so two are equal if and only if they show the
/// same. After a refusal the state is as it was, byte for byte; only a refused `restart` leaves the blank one.
#[derive(Clone, PartialEq, Eq)]
pub struct State(sys::State);

impl State {
    /// A start: a state begins with a batch for ROOT with tree data. The report lists nothing.
    ///
    /// # Errors
    ///
    /// The number of the rule that the batch breaks.
    pub fn start(batch: &[u8], host_focused: bool) -> Result<(Self, Report<'static>), Number> {
        let mut state = Self::blank();
        let report = state.restart(batch, host_focused)?;
        Ok((state, report))
    }

    /// The blank state, with no node and no tree. No call but [`restart`](State::restart) takes it.
    pub const fn blank() -> Self {
        Self(sys::State::blank())
    }

    /// A start in this state's place, whatever it was.
    ///
    /// # Errors
    ///
    /// The number of the rule that the batch breaks. The state is then the blank one.
    pub fn restart(&mut self, batch: &[u8], host_focused: bool) -> Result<Report<'static>, Number> {
        let reply = self.0.start(batch, host_focused);
        accepted(reply.number)?;
        Ok(Report::new(&reply, &[]))
    }

    /// A batch on this state. `changes` takes the report's lists; [`CHANGES`](crate::CHANGES) elements are enough
    /// for any batch.
    ///
    /// # Errors
    ///
    /// The number of the rule that the batch breaks. The state and `changes` are then as they were.
    pub fn update<'a>(&mut self, batch: &[u8], changes: &'a mut [u64]) -> Result<Report<'a>, Number> {
        let reply = self.0.update(batch, changes);
        accepted(reply.number)?;
        Ok(Report::new(&reply, changes))
    }

    /// A host focus change: whether the terminal itself has the focus. The report lists nothing.
    ///
    /// # Errors
    ///
    /// [`Number::StateNotSound`] alone.
    pub fn host_focus(&mut self, host_focused: bool) -> Result<Report<'static>, Number> {
        let reply = self.0.host_focus(host_focused);
        accepted(reply.number)?;
        Ok(Report::new(&reply, &[]))
    }

    /// Why a batch on this state would get its number, or be accepted, with so many elements lent for its lists. Nothing is
    /// changed: a batch that was refused can be explained on the same state.
    pub fn explain(&self, batch: &[u8], room: usize) -> Explanation {
        let mut way = [0; WAY_WORDS];
        let why = self.0.explain(batch, room, &mut way);
        Explanation::new(why, way)
    }

    /// Why a [`start`](State::start) would get its number, or be accepted. It works in a state of its own, so it needs
    /// [`START_STACK`](crate::START_STACK) bytes of stack.
    pub fn explain_start(batch: &[u8]) -> Explanation {
        Self::blank().explain_restart(batch)
    }

    /// Why a [`restart`](State::restart) would get its number, or be accepted. It works in this state, whatever that was, and
    /// leaves the blank one, as a refused `restart` does; it needs no more than [`STACK`](crate::STACK).
    pub fn explain_restart(&mut self, batch: &[u8]) -> Explanation {
        let mut way = [0; WAY_WORDS];
        let why = self.0.explain_start(batch, &mut way);
        Explanation::new(why, way)
    }

    /// How many nodes its words count, sound or not; [`counts`](State::counts) asks the library.
    pub fn node_count(&self) -> usize {
        count(self.0.words[0])
    }

    /// How many tree numbers its words count as taken, sound or not. They are kept for good.
    pub fn tree_count(&self) -> usize {
        count(self.0.words[1])
    }

    /// Whether its words say that the terminal itself has the focus, sound or not.
    pub fn is_host_focused(&self) -> bool {
        self.0.words[2] != 0
    }

    /// The library's own state.
    pub(crate) fn raw(&self) -> &sys::State {
        &self.0
    }

    /// The state of these bytes, as [`to_bytes`](State::to_bytes) gives them. Any bytes are a state; the calls
    /// refuse one that is not sound with [`Number::StateNotSound`].
    pub fn from_bytes(bytes: &[u8; STATE_BYTES]) -> Self {
        let mut state = Self::blank();
        let (chunks, _) = bytes.as_chunks();
        for (word, chunk) in state.0.words.iter_mut().zip(chunks) {
            *word = u64::from_le_bytes(*chunk);
        }
        state
    }

    /// The words of this state, each as eight bytes, the lowest first.
    pub fn to_bytes(&self) -> [u8; STATE_BYTES] {
        let mut bytes = [0; STATE_BYTES];
        let (chunks, _) = bytes.as_chunks_mut();
        for (chunk, word) in chunks.iter_mut().zip(&self.0.words) {
            *chunk = word.to_le_bytes();
        }
        bytes
    }
}

/// A count that a word holds.
fn count(word: u64) -> usize {
    usize::try_from(word).unwrap_or(usize::MAX)
}

/// The root and the focus of a tree. The focus of a tree that is not now focused may be absent.
#[derive(Clone, Copy, Debug, PartialEq, Eq, Hash)]
pub struct TreeEnds {
    /// Its root.
    pub root: FullNodeId,
    /// Its focus.
    pub focus: FullNodeId,
}

/// How many nodes and trees a state has, and whether the terminal itself has the focus.
#[derive(Clone, Copy, Debug, Default, PartialEq, Eq, Hash)]
#[non_exhaustive]
pub struct Counts {
    /// How many nodes there are.
    pub nodes: usize,
    /// How many tree numbers are taken.
    pub trees: usize,
    /// Whether the terminal itself has the focus.
    pub host_focused: bool,
}

/// The questions about the state as a whole. Each is refused with [`Number::StateNotSound`] alone.
#[allow(clippy::missing_errors_doc)]
impl State {
    /// The node that has the focus: none while the host is not focused.
    pub fn focus(&self) -> Result<Option<NodeRef<'_>>, Number> {
        self.focus_id()?.map(|id| self.node(id)).transpose()
    }

    /// The id of the node that has the focus.
    pub fn focus_id(&self) -> Result<Option<FullNodeId>, Number> {
        let found = self.0.focus();
        accepted(found.number)?;
        Ok(present(found.id))
    }

    /// The root of [`TreeId::ROOT`].
    pub fn root(&self) -> Result<NodeRef<'_>, Number> {
        self.node(self.root_id()?)
    }

    /// The id of that root, which every sound state has.
    pub fn root_id(&self) -> Result<FullNodeId, Number> {
        let found = self.0.root();
        accepted(found.number)?;
        present(found.id).ok_or(Number::StateNotSound)
    }

    /// The tree id that has this number, if it is taken.
    pub fn tree_id(&self, index: TreeIndex) -> Result<Option<TreeId>, Number> {
        let found = self.0.tree_id(index.0);
        accepted(found.number)?;
        Ok((found.present != 0).then_some(found.id))
    }

    /// The number of a tree id, if it has one.
    pub fn tree_index(&self, id: TreeId) -> Result<Option<TreeIndex>, Number> {
        let found = self.0.tree_index(id);
        accepted(found.number)?;
        Ok((found.present != 0).then_some(TreeIndex(found.index)))
    }

    /// The root and the focus of a tree, if it exists.
    pub fn tree_ends(&self, index: TreeIndex) -> Result<Option<TreeEnds>, Number> {
        let found = self.0.tree_ends(index.0);
        accepted(found.number)?;
        Ok(present(found.root).zip(present(found.focus)).map(|(root, focus)| TreeEnds { root, focus }))
    }

    /// How many nodes and trees there are, and whether the terminal itself has the focus.
    pub fn counts(&self) -> Result<Counts, Number> {
        let found = self.0.counts();
        accepted(found.number)?;
        Ok(Counts { nodes: found.nodes, trees: found.trees, host_focused: found.host_focused != 0 })
    }
}

/// The blank state.
impl Default for State {
    fn default() -> Self {
        Self::blank()
    }
}

impl From<&[u8; STATE_BYTES]> for State {
    fn from(bytes: &[u8; STATE_BYTES]) -> Self {
        Self::from_bytes(bytes)
    }
}

impl From<&State> for [u8; STATE_BYTES] {
    fn from(state: &State) -> Self {
        state.to_bytes()
    }
}

impl TryFrom<&[u8]> for State {
    type Error = WrongLength;

    /// As [`from_bytes`](State::from_bytes), of as many bytes as a state has.
    fn try_from(bytes: &[u8]) -> Result<Self, WrongLength> {
        bytes.try_into().map(Self::from_bytes).map_err(|_| WrongLength(bytes.len()))
    }
}

/// Bytes that are more or fewer than a state's: how many there are.
#[derive(Clone, Copy, Debug, PartialEq, Eq)]
pub struct WrongLength(pub usize);

impl fmt::Display for WrongLength {
    fn fmt(&self, f: &mut fmt::Formatter<'_>) -> fmt::Result {
        write!(f, "{} bytes, of a state's {STATE_BYTES}", self.0)
    }
}

impl Error for WrongLength {}

impl fmt::Debug for State {
    fn fmt(&self, f: &mut fmt::Formatter<'_>) -> fmt::Result {
        f.debug_struct("State")
            .field("node_count", &self.node_count())
            .field("tree_count", &self.tree_count())
            .field("is_host_focused", &self.is_host_focused())
            .finish_non_exhaustive()
    }
}
