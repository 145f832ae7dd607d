// Layout files: a file is refused with the least number that applies, or becomes a tree, as docs/LAYOUT.md says.

use crate::fields::{Family, Sort};

#[derive(Clone, Copy, Default, PartialEq)]
pub struct Node {
    pub shape: u8,
    pub kind: u8,
    pub parameter: u8,
    pub column: u8,
    pub child: usize,
    pub next: usize,
    pub zero: u32,
}

pub const FIELD: u8 = 1;
pub const MARK: u8 = 2;
pub const SEQUENCE: u8 = 3;
pub const CHOICE: u8 = 4;
pub const OPTION: u8 = 5;
pub const CHECK: u8 = 7;

impl Node {
    pub fn of_record(record: &[u8]) -> Node {
        let bits = u64::from_be_bytes(record.try_into().unwrap());
        let field = |width: u32, below: u32| bits >> below & ((1 << width) - 1);
        Node {
            shape: field(4, 60) as u8,
            kind: field(6, 54) as u8,
            parameter: field(8, 46) as u8,
            column: field(6, 40) as u8,
            child: field(8, 32) as usize,
            next: field(8, 24) as usize,
            zero: field(24, 0) as u32,
        }
    }

    pub fn record(&self) -> [u8; 8] {
        let bits = (self.shape as u64) << 60
            | (self.kind as u64) << 54
            | (self.parameter as u64) << 46
            | (self.column as u64) << 40
            | (self.child as u64) << 32
            | (self.next as u64) << 24
            | self.zero as u64;
        bits.to_be_bytes()
    }

    fn has_parts(&self) -> bool {
        self.shape == SEQUENCE || self.shape == CHOICE || self.shape == OPTION
    }

    /// The node with only those fields that its shape names; none where the shape is unknown.
    fn named(&self) -> Option<Node> {
        let only = Node { shape: self.shape, next: self.next, ..Node::default() };
        match self.shape {
            FIELD => Some(Node { kind: self.kind, parameter: self.parameter, column: self.column, ..only }),
            MARK => Some(Node { parameter: self.parameter, ..only }),
            SEQUENCE | CHOICE | OPTION => Some(Node { child: self.child, ..only }),
            CHECK => Some(Node { kind: self.kind, parameter: self.parameter, column: self.column, ..only }),
            _ => None,
        }
    }
}

pub struct Layout {
    pub nodes: Vec<Node>,
    pub constants: Vec<i64>,
}

impl Layout {
    /// A node by its number, from 1.
    pub fn node(&self, number: usize) -> &Node {
        &self.nodes[number - 1]
    }

    /// The parts of a node, by number, in order.
    pub fn parts(&self, number: usize) -> Vec<usize> {
        let mut parts = Vec::new();
        let mut part = self.node(number).child;
        while part != 0 {
            parts.push(part);
            part = self.node(part).next;
        }
        parts
    }

    pub fn load(family: &Family, file: &[u8]) -> Result<Layout, u8> {
        match refusals(family, file).first() {
            Some(number) => Err(*number),
            None => Ok(unpacked(file).unwrap()),
        }
    }
}

/// The nodes and constants of a file whose counts and length are right.
fn unpacked(file: &[u8]) -> Option<Layout> {
    if file.len() < 2 {
        return None;
    }
    let (n, k) = (file[0] as usize, file[1] as usize);
    if !(1..=200).contains(&n) || k > 64 || file.len() != 2 + 8 * n + 8 * k {
        return None;
    }
    let records: Vec<&[u8]> = file[2..].chunks(8).collect();
    Some(Layout {
        nodes: records[..n].iter().map(|record| Node::of_record(record)).collect(),
        constants: records[n..].iter().map(|record| i64::from_be_bytes((*record).try_into().unwrap())).collect(),
    })
}

/// All numbers that apply to a file, as far as they can be told; the answer is the first.
pub fn refusals(family: &Family, file: &[u8]) -> Vec<u8> {
    let Some(layout) = unpacked(file) else { return vec![1] };
    let nodes = &layout.nodes;
    let mut numbers = Vec::new();
    if nodes.iter().any(|node| node.named() != Some(*node)) {
        numbers.push(2);
    }
    if (1..=nodes.len()).any(|number| leads_wrong(&layout, number)) {
        numbers.push(3);
    }
    if (2..=nodes.len()).any(|number| times_named(nodes, number) != 1) {
        numbers.push(4);
    }
    if nodes.iter().any(|node| node.shape == FIELD && family.sort(node.kind, node.parameter) == Sort::Unknown) {
        numbers.push(5);
    }
    if nodes.iter().any(|node| out_of_range(node, layout.constants.len())) {
        numbers.push(6);
    }
    if !numbers.contains(&3) && !numbers.contains(&4) && too_deep(&layout, 1, 1) {
        numbers.push(7);
    }
    numbers
}

fn leads_wrong(layout: &Layout, number: usize) -> bool {
    let node = layout.node(number);
    let nowhere = |link: usize| link != 0 && (link <= number || link > layout.nodes.len());
    if nowhere(node.child) || nowhere(node.next) {
        return true;
    }
    if node.has_parts() && node.child == 0 {
        return true;
    }
    if number == 1 && node.next != 0 {
        return true;
    }
    node.shape == OPTION && layout.node(node.child).next != 0
}

fn times_named(nodes: &[Node], number: usize) -> usize {
    nodes.iter().map(|node| (node.child == number) as usize + (node.next == number) as usize).sum()
}

fn out_of_range(node: &Node, constants: usize) -> bool {
    let parameter = node.parameter as usize;
    match node.shape {
        FIELD => node.column > 32,
        CHECK => {
            let side = (1..=32).contains(&parameter) || (64..=127).contains(&parameter) && parameter - 64 < constants;
            !(1..=4).contains(&node.kind) || !(1..=32).contains(&node.column) || !side
        }
        _ => false,
    }
}

fn too_deep(layout: &Layout, number: usize, depth: usize) -> bool {
    depth > 16 || layout.parts(number).iter().any(|part| too_deep(layout, *part, depth + 1))
}
