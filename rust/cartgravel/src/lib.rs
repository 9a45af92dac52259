//! The accessibility tree of a payment terminal: safe types over Cartgravel's proved library.
//!
//! A shop draws a screen, a bank draws a payment pane inside it, and both send batches of nodes. A [`State`] is
//! what they add up to. Each call answers what changed, a [`Report`], or with what it refused, a [`Number`], and then
//! [`explain`](State::explain) says why, a [`Reason`]. Then the state is asked: what has the focus, what it is called, what
//! a cardholder can reach from there, each a [`NodeRef`].
//! Nothing here panics, whatever the bytes: the library is proved to answer every batch and every question on every
//! state. Nothing allocates, and the crate needs no `std`.
//!
//! ```
//! use cartgravel::{Batch, CHANGES, Filter, Node, RECORD_BYTES, Role, Side, State, TreeId};
//!
//! const BUTTON: Role = Role(4);
//! let mut buffer = [0; RECORD_BYTES];
//!
//! // A screen with a button and with room for the bank's pane.
//! let screen = Batch::new(TreeId::ROOT, 2)
//!     .root(1)
//!     .nodes(&[
//!         Node::new(1).role(Role::DIALOG).children(&[2, 3]),
//!         Node::new(2).role(BUTTON).label("Cancel"),
//!         Node::new(3).graft(7),
//!     ])
//!     .encode(&mut buffer)?;
//! let (mut state, _) = State::start(screen, true)?;
//! assert_eq!(state.focus()?.unwrap().label(), "Cancel");
//!
//! // The pane, whose button follows the shop's.
//! let pane = Batch::new(7, 1).root(1).nodes(&[Node::new(1).role(BUTTON).label("Pay")]).encode(&mut buffer)?;
//! let mut changes = [0; CHANGES];
//! let report = state.update(pane, &mut changes)?;
//! assert_eq!(report.added().len(), 1);
//!
//! // What a cardholder can reach, and the way there from the focus.
//! let items = state.root()?.filtered_children(Filter::Common);
//! assert!(items.map(|item| item.label().to_string()).eq(["Cancel", "Pay"]));
//! let mut walk = state.focus()?.unwrap().walk(Side::Following, Some(Filter::Common));
//! let next = walk.next(&state)?.unwrap();
//! assert_eq!(state.node(next)?.label(), "Pay");
//! assert_eq!(walk.next(&state)?, None);
//! # Ok::<(), Box<dyn std::error::Error>>(())
//! ```
//!
//! A batch that breaks a rule is refused, and the state is as it was, so that it can say why:
//!
//! ```
//! use cartgravel::{Batch, Node, Number, RECORD_BYTES, State, TreeId};
//!
//! let mut buffer = [0; RECORD_BYTES];
//! let screen = Batch::new(TreeId::ROOT, 1).root(1).nodes(&[Node::new(1)]).encode(&mut buffer)?;
//! let (mut state, _) = State::start(screen, true)?;
//! let before = state.clone();
//!
//! let twice = Batch::new(TreeId::ROOT, 1).nodes(&[Node::new(1).children(&[2, 2])]).encode(&mut buffer)?;
//! assert_eq!(state.update(twice, &mut []).unwrap_err(), Number::ChildNamedTwice);
//! assert_eq!(state, before);
//! let why = state.explain(twice, 0);
//! assert_eq!(why.to_string(), "node (0, 1) names the child (0, 2) twice");
//! assert_eq!(why.reason().mend(), Some("let only the new parent name the child, once"));
//! # Ok::<(), Box<dyn std::error::Error>>(())
//! ```
#![no_std]
#![deny(unsafe_code)]
#![deny(clippy::indexing_slicing, clippy::unwrap_used, clippy::expect_used, clippy::panic)]
#![warn(missing_docs)]

mod batch;
mod data;
mod filters;
mod geometry;
mod ids;
mod iterators;
mod label;
mod node;
mod number;
mod reason;
mod record;
mod report;
mod state;
pub mod sys;

pub use batch::{Batch, Children, EncodeError, ListedNodes, Node};
pub use data::{NodeData, Role};
pub use filters::{Filter, FilterResult};
pub use geometry::{Affine, BoundingBox, Rect};
pub use ids::{FullNodeId, NoSuchId, NodeId, TreeId, TreeIndex};
pub use iterators::{NodeIds, NodeRefs, Side, Walk};
pub use label::Label;
pub use node::NodeRef;
pub use number::{NoSuchNumber, Number};
pub use reason::{Broken, Dropped, Explanation, Reason};
pub use report::{Ids, Report};
pub use state::{Counts, State, TreeEnds, WrongLength};

/// The most nodes that a state holds.
pub const NODES: usize = 256;
/// The most tree numbers that a state gives out.
pub const TREES: usize = 32;
/// The most nodes that a batch lists.
pub const LISTED_NODES: usize = 64;
/// The most child entries of a batch.
pub const CHILD_ENTRIES: usize = 256;
/// The most bytes of a node's label.
pub const LABEL_BYTES: usize = 32;
/// The most bytes of a batch record.
pub const RECORD_BYTES: usize = 12_352;
/// Elements that hold the four lists of any batch.
pub const CHANGES: usize = 1_024;
/// The words of a state.
pub const STATE_WORDS: usize = 9_640;
/// The bytes of a state.
pub const STATE_BYTES: usize = 8 * STATE_WORDS;
/// The words of the way that an explanation has room for.
pub const WAY_WORDS: usize = 66;
/// The bytes of stack that a call needs, measured and rounded up to the next 64 KiB.
pub const STACK: usize = 196_608;
/// The bytes of stack that [`State::start`] needs, which answers a state by value.
pub const START_STACK: usize = 720_896;

/// Runs the example of README.md with the others.
#[cfg(doctest)]
#[doc = include_str!("../README.md")]
struct Readme;
