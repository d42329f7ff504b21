//! Layouts, and the places in them.

use crate::node::{Difference, Node};
use crate::{Place, ffi};
use std::iter::FusedIterator;

/// Where the parts of the values of a type stand. It is made once, and then serves any number of reads and writes.
#[derive(Clone, Debug)]
pub struct Layout {
    nodes: Vec<Node>,
    names: String,
}

impl Layout {
    pub(crate) fn new(nodes: Vec<Node>, names: &str) -> Layout {
        let mut layout = Layout {
            nodes,
            names: String::new(),
        };
        layout.take_names(names);
        layout
    }

    // The names alone, without the text in which they stood.
    fn take_names(&mut self, text: &str) {
        for node in &mut self.nodes {
            let name = text
                .get(node.name_start as usize..node.name_end as usize)
                .unwrap_or("");
            node.name_start = self.names.len() as u32;
            self.names.push_str(name);
            node.name_end = self.names.len() as u32;
        }
    }

    /// A layout of a host's own making, as from `offset_of!`, with the names that the records speak of; `None` where the
    /// records are not the layout of a type.
    pub fn from_nodes(nodes: Vec<Node>, names: impl Into<String>) -> Option<Layout> {
        ffi::is_table(&nodes).then(|| Layout {
            nodes,
            names: names.into(),
        })
    }

    /// The records, the root first.
    pub fn nodes(&self) -> &[Node] {
        &self.nodes
    }

    fn root(&self) -> Node {
        self.nodes.first().copied().unwrap_or_default()
    }

    /// How many bytes a value takes; `None` where the type is or ends in a runtime-sized array.
    pub fn size(&self) -> Option<u64> {
        let root = self.root();
        (!root.is_runtime_sized()).then_some(u64::from(root.size))
    }

    /// How many bytes a value takes with so many elements in the runtime-sized array.
    pub fn size_with(&self, elements: u64) -> Option<u64> {
        ffi::size_with(&self.nodes, 0, elements)
    }

    /// How many elements the runtime-sized array has in so many bytes, 0 where there is none; `None` where the bytes are
    /// too few.
    pub fn count_in(&self, length: usize) -> Option<u64> {
        ffi::count_in(&self.nodes, 0, u64::try_from(length).unwrap_or(u64::MAX))
    }

    /// What the place of a value is a multiple of, in bytes.
    pub fn align(&self) -> u32 {
        self.root().align
    }

    /// The place of the whole value.
    pub fn whole(&self) -> Option<Place> {
        ffi::whole(&self.nodes)
    }

    /// The place of a component, column, element or member by its position, in a value of so many bytes.
    pub fn part(&self, place: Place, index: u64, length: usize) -> Option<Place> {
        ffi::part(&self.nodes, place, index, length)
    }

    /// The place of a path as WGSL writes it behind a variable, as `lights[3].color.y` or `[2].x`, in a value of so many
    /// bytes.
    pub fn place(&self, path: &str, length: usize) -> Option<Place> {
        ffi::place_of(&self.nodes, &self.names, length, path)
    }

    /// The members of the structure; none where it is none.
    pub fn members(&self) -> Members<'_> {
        self.members_of(0)
    }

    /// The members of the structure of this record.
    pub fn members_of(&self, number: u32) -> Members<'_> {
        let nodes = match self.nodes.get(number as usize) {
            Some(node) if node.sort() == Some(crate::Sort::Structure) => {
                let first = node.child as usize;
                self.nodes
                    .get(first..first.saturating_add(node.count as usize))
                    .unwrap_or(&[])
            }
            _ => &[],
        };
        Members {
            nodes: nodes.iter(),
            names: &self.names,
        }
    }

    /// Where this layout and another differ first, names apart; `None` where they are the same.
    pub fn first_difference(&self, other: &Layout) -> Option<Difference> {
        ffi::first_difference(&self.nodes, &other.nodes)
    }
}

/// The same layout, names apart.
impl PartialEq for Layout {
    fn eq(&self, other: &Layout) -> bool {
        self.first_difference(other).is_none()
    }
}

/// A member of a structure.
#[derive(Clone, Copy, Debug)]
pub struct Member<'a> {
    /// Its name; empty where it has none.
    pub name: &'a str,
    /// Its record.
    pub node: &'a Node,
}

/// The members of a structure in their order.
#[derive(Clone, Debug)]
pub struct Members<'a> {
    nodes: std::slice::Iter<'a, Node>,
    names: &'a str,
}

impl<'a> Iterator for Members<'a> {
    type Item = Member<'a>;

    fn next(&mut self) -> Option<Member<'a>> {
        let node = self.nodes.next()?;
        let name = self
            .names
            .get(node.name_start as usize..node.name_end as usize);
        Some(Member {
            name: name.unwrap_or(""),
            node,
        })
    }

    fn size_hint(&self) -> (usize, Option<usize>) {
        self.nodes.size_hint()
    }
}

impl ExactSizeIterator for Members<'_> {}
impl FusedIterator for Members<'_> {}
