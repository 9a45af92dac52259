//! The three filters: document 01, "Filter and walks".

/// What a filter says of a node.
#[derive(Clone, Copy, Debug, PartialEq, Eq, PartialOrd, Ord, Hash)]
pub enum FilterResult {
    /// The node is shown.
    Include,
    /// The node is not shown; its children stand in its place.
    ExcludeNode,
    /// Neither the node nor anything below it is shown.
    ExcludeSubtree,
}

/// A filter.
#[derive(Clone, Copy, Debug, PartialEq, Eq, PartialOrd, Ord, Hash)]
#[non_exhaustive]
#[repr(u32)]
pub enum Filter {
    /// `common_filter`: what a cardholder can reach.
    Common = 1,
    /// `common_filter_with_root_exception`: the same, with ROOT's root included whatever it is.
    WithRootException = 2,
    /// `common_filter_without_parent_checks`: what the common filter says before it looks at a node's parents.
    WithoutParentChecks = 3,
}

impl From<Filter> for u32 {
    fn from(filter: Filter) -> Self {
        filter as u32
    }
}

impl FilterResult {
    /// What the library's number stands for.
    pub(crate) fn of(number: u32) -> Self {
        match number {
            0 => Self::Include,
            1 => Self::ExcludeNode,
            _ => Self::ExcludeSubtree,
        }
    }
}
