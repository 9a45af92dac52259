//! States and batches, each made once and said in two forms: the record that the proved library reads, and the
//! structs that the crate is handed.

/// The label of a node as its state has it, and another of the same length.
const LABEL: &str = "ABCDEFGH";
const OTHER_LABEL: &str = "12345678";
const BOUNDS: [f64; 4] = [0.0, 0.0, 80.0, 24.0];
const TRANSFORM: [f64; 6] = [1.0, 0.0, 0.0, 1.0, 8.0, 8.0];
const ROLE: u8 = 4;

/// The node that has the focus in every state and batch, unless said otherwise.
const FOCUS: u64 = 1;

/// A listed node. Each has a role, bounds and a transform besides.
#[derive(Clone)]
pub struct Node {
    pub id: u64,
    pub children: Vec<u64>,
    pub label: &'static str,
    /// The tree id that it grafts, high and low half.
    pub graft: Option<(u64, u64)>,
}

impl Node {
    /// A leaf.
    pub fn plain(id: u64) -> Self {
        Self { id, children: vec![], label: LABEL, graft: None }
    }

    /// A leaf that grafts this tree.
    pub fn graft_of(id: u64, tree: (u64, u64)) -> Self {
        Self { graft: Some(tree), ..Self::plain(id) }
    }

    /// A leaf that grafts the tree with this low half, the high one being 0.
    pub fn graft(id: u64, low: u64) -> Self {
        Self::graft_of(id, (0, low))
    }

    /// With these children instead.
    pub fn with(self, children: &[u64]) -> Self {
        Self { children: children.to_vec(), ..self }
    }

    /// As the proved library's builder has it.
    fn listed(&self) -> cartgravel::Node<'_> {
        let node = cartgravel::Node::new(self.id)
            .role(ROLE)
            .label(self.label)
            .children(&self.children[..])
            .bounds(BOUNDS)
            .transform(TRANSFORM);
        match self.graft {
            Some((high, low)) => node.graft(cartgravel::TreeId { high, low }),
            None => node,
        }
    }

    /// As the crate has it.
    fn built(&self) -> (accesskit::NodeId, accesskit::Node) {
        let [x0, y0, x1, y1] = BOUNDS;
        let node = accesskit::Node {
            role_code: ROLE,
            label: self.label.to_string(),
            children: self.children.iter().copied().map(accesskit::NodeId).collect(),
            tree_id: self.graft.map(|(high, low)| accesskit::TreeId(high, low)),
            bounds: Some(accesskit::Rect { x0, y0, x1, y1 }),
            transform: Some(accesskit::Affine(TRANSFORM)),
            ..Default::default()
        };
        (accesskit::NodeId(self.id), node)
    }
}

/// A batch; its tree is said by the high and the low half of the tree id.
#[derive(Clone)]
pub struct Batch {
    pub tree: (u64, u64),
    pub root: Option<u64>,
    pub focus: u64,
    pub nodes: Vec<Node>,
}

impl Batch {
    /// A batch for ROOT without tree data.
    pub fn of(nodes: Vec<Node>) -> Self {
        Self { tree: (0, 0), root: None, focus: FOCUS, nodes }
    }

    /// The record.
    pub fn record(&self) -> Vec<u8> {
        let (high, low) = self.tree;
        let nodes: Vec<_> = self.nodes.iter().map(Node::listed).collect();
        let batch = cartgravel::Batch::new(cartgravel::TreeId { high, low }, self.focus).nodes(&nodes);
        let batch = self.root.iter().fold(batch, |batch, root| batch.root(*root));
        let mut buffer = [0; cartgravel::RECORD_BYTES];
        batch.encode(&mut buffer).expect("a record holds every batch here").to_vec()
    }

    /// The structs.
    pub fn update(&self) -> accesskit::TreeUpdate {
        let info = |root| accesskit::TreeInfo { root, toolkit_name: None, toolkit_version: None };
        accesskit::TreeUpdate {
            nodes: self.nodes.iter().map(Node::built).collect(),
            tree: self.root.map(accesskit::NodeId).map(info),
            tree_id: accesskit::TreeId(self.tree.0, self.tree.1),
            focus: accesskit::NodeId(self.focus),
        }
    }
}

/// A state: how many nodes, numbered from 0, and how many children each has while there are nodes left.
#[derive(Clone, Copy)]
pub struct Shape {
    pub nodes: u64,
    pub fan: u64,
}

impl Shape {
    /// Node i of the state.
    pub fn node(self, i: u64) -> Node {
        let children = (i * self.fan + 1..=i * self.fan + self.fan).filter(|c| *c < self.nodes).collect();
        Node { children, ..Node::plain(i) }
    }

    /// These nodes of the state.
    fn list(self, nodes: impl IntoIterator<Item = u64>) -> Vec<Node> {
        nodes.into_iter().map(|i| self.node(i)).collect()
    }

    /// A start that lists the whole state.
    pub fn start(self) -> Batch {
        Batch { root: Some(0), ..Batch::of(self.list(0..self.nodes)) }
    }

    /// A start of at most 32 nodes and the batches that add the others, 32 at a time.
    pub fn parts(self) -> (Batch, Vec<Batch>) {
        let first = |nodes| Shape { nodes: self.nodes.min(nodes), ..self };
        let adds = (32..self.nodes).step_by(32).map(|from| {
            let (before, after) = (first(from), first(from + 32));
            let other = |i: &u64| from <= *i || before.node(*i).children != after.node(*i).children;
            Batch::of(after.list((0..after.nodes).filter(other)))
        });
        (first(32).start(), adds.collect())
    }

    /// The last `count` nodes with another label; then with the one that they had.
    pub fn labels(self, count: u64) -> [Batch; 2] {
        let old = self.list(self.nodes - count..self.nodes);
        let new = old.iter().map(|node| Node { label: OTHER_LABEL, ..node.clone() }).collect();
        [new, old].map(Batch::of)
    }

    /// A subtree to another parent; then back. A chain's lower half goes to the root. Else the second child of the
    /// root, with a quarter of the nodes or so, goes to the first.
    pub fn moves(self) -> [Batch; 2] {
        let (moved, from, to) =
            if self.fan == 1 { (self.nodes / 2, self.nodes / 2 - 1, 0) } else { (2, 0, 1) };
        let old = self.list([from, to]);
        let mut new = old.clone();
        new[0].children.retain(|child| *child != moved);
        new[1].children.push(moved);
        [new, old].map(Batch::of)
    }

    /// The last node removed; then added.
    pub fn last_removed(self) -> [Batch; 2] {
        let parent = (self.nodes - 2) / self.fan;
        let less = Shape { nodes: self.nodes - 1, ..self };
        [Batch::of(less.list([parent])), Batch::of(self.list([parent, self.nodes - 1]))]
    }

    /// The last node as it is, twice.
    pub fn nothing(self) -> [Batch; 2] {
        let same = Batch::of(self.list([self.nodes - 1]));
        [same.clone(), same]
    }
}
