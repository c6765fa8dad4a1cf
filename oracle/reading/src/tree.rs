//! Trees, and the bytes of a tree: "A node is a record: two-byte length (bytes
//! that follow it), two-byte kind, payload; all little-endian. Nodes stand in
//! pre-order."

use crate::kind::{Family, Kind};

/// A node and what hangs under it.
///
/// Any kind may have any children here; [`read`](crate::read()) answers only
/// trees whose nodes have what their kind asks for.
#[derive(Clone, Debug, PartialEq, Eq)]
pub struct Tree {
    /// The node's kind.
    pub kind: Kind,
    /// Its children, in order.
    pub children: Vec<Tree>,
}

/// What tree bytes tell of one node: its kind and how many children follow.
#[derive(Clone, Copy, Debug, PartialEq, Eq)]
pub struct Record {
    /// The node's kind.
    pub kind: Kind,
    /// Its child count.
    pub children: u16,
}

impl Tree {
    /// A node over these children.
    pub fn new(kind: Kind, children: Vec<Self>) -> Self {
        Self { kind, children }
    }

    /// A node without children.
    pub fn childless(kind: Kind) -> Self {
        Self::new(kind, Vec::new())
    }

    /// A leaf.
    pub fn leaf() -> Self {
        Self::childless(Kind::Leaf)
    }

    /// A node of this kind over a number of leaves.
    pub fn of_leaves(kind: Kind, leaves: usize) -> Self {
        Self::new(kind, vec![Self::leaf(); leaves])
    }

    /// This tree under a number of one-child nodes of this kind.
    pub fn under(self, kind: Kind, times: usize) -> Self {
        (0..times).fold(self, |tree, _| Self::new(kind, vec![tree]))
    }

    /// How many nodes the tree has.
    pub fn nodes(&self) -> usize {
        1 + self.children.iter().map(Self::nodes).sum::<usize>()
    }

    /// How many levels the tree has, "the root being level 1".
    pub fn levels(&self) -> usize {
        1 + self.children.iter().map(Self::levels).max().unwrap_or(0)
    }

    /// The nodes in pre-order.
    pub fn records(&self) -> Vec<Record> {
        let mut records = Vec::new();
        self.push_records(&mut records);
        records
    }

    fn push_records(&self, records: &mut Vec<Record>) {
        records.push(Record::counted(self.kind, self.children.len()));
        for child in &self.children {
            child.push_records(records);
        }
    }

    /// The tree whose pre-order begins with these nodes. Where the list ends
    /// early, the open nodes keep the children they have; what follows the
    /// root's subtree is left out.
    pub fn from_records(records: &[Record]) -> Option<Self> {
        Self::grow(&mut records.iter())
    }

    fn grow(records: &mut std::slice::Iter<'_, Record>) -> Option<Self> {
        let record = records.next()?;
        let children = (0..record.children).map_while(|_| Self::grow(records));
        Some(Self::new(record.kind, children.collect()))
    }

    /// The tree's bytes. A kind that is never lowered is written with no
    /// payload.
    pub fn to_bytes(&self) -> Vec<u8> {
        self.records().iter().flat_map(Record::to_bytes).collect()
    }
}

impl Record {
    /// The record of a node with so many children.
    ///
    /// # Panics
    ///
    /// Panics above 65,535 children, which no bytes can tell.
    pub fn counted(kind: Kind, children: usize) -> Self {
        Self {
            kind,
            children: u16::try_from(children).expect("a child count has two bytes"),
        }
    }

    /// The record of this kind with this child count in its payload, if it has
    /// one; a decorator has one child, any other kind none.
    pub fn with_payload(kind: Kind, count: u16) -> Self {
        let children = match kind.family() {
            Family::Composite { .. } => count,
            Family::Decorator(_) => 1,
            Family::Leaf | Family::Constant(_) | Family::NeverLowered => 0,
        };
        Self { kind, children }
    }

    /// The record's bytes.
    pub fn to_bytes(&self) -> Vec<u8> {
        let mut payload = self.kind.number().to_le_bytes().to_vec();
        if self.kind.is_composite() {
            payload.extend(self.children.to_le_bytes());
        }
        let length = u16::try_from(payload.len()).expect("a record is short");
        [length.to_le_bytes().to_vec(), payload].concat()
    }
}
