use crate::{raw, Result, BAD_LABEL};
use std::collections::HashMap;

/// A number with its width, 8 or 16 bits.
#[derive(Clone, Copy, PartialEq, Eq, Debug)]
pub struct Value {
    pub number: u16,
    pub width: u8,
}

/// A node's place in the table of [`ProgramLabels`].
#[derive(Clone, Copy, PartialEq, Eq, Debug)]
pub struct NodeId(pub u16);

/// What the tool's `ValueNode` tree becomes, a node at a time.
#[derive(Clone, Copy, PartialEq, Eq, Debug)]
pub enum Node<'a> {
    Constant(u16),
    Label(&'a str),
    Location,
    Negation(NodeId),
    Sum(NodeId, NodeId),
    Difference(NodeId, NodeId),
    Product(NodeId, NodeId),
}

const UNDEFINED: u16 = 0;
const ADDRESS: u16 = 1;
const EXPRESSION: u16 = 2;

/// Labels by name, and the nodes of their expressions and of operands.
#[derive(Clone, Default, Debug)]
pub struct ProgramLabels {
    numbers: HashMap<String, u16>,
    // rows of (state, own address, node), and of (kind, left, right)
    labels: Vec<u16>,
    nodes: Vec<u16>,
}

impl ProgramLabels {
    pub fn new() -> Self {
        Self::default()
    }

    /// The label's number; a new name gets the next one, and the library refuses those above 511.
    fn number(&mut self, name: &str) -> u16 {
        if let Some(&number) = self.numbers.get(name) {
            return number;
        }
        let number = self.numbers.len().min(0xFFFF) as u16;
        self.numbers.insert(name.to_string(), number);
        self.labels.extend([UNDEFINED, 0, 0]);
        number
    }

    fn row(&self, name: &str) -> Option<usize> {
        self.numbers.get(name).map(|&number| 3 * number as usize)
    }

    /// Adds a node to the table. A label may be named before it is defined.
    pub fn node(&mut self, node: Node) -> NodeId {
        let row = match node {
            Node::Constant(number) => [0, number, 0],
            Node::Label(name) => [1, self.number(name), 0],
            Node::Location => [2, 0, 0],
            Node::Negation(a) => [3, a.0, 0],
            Node::Sum(a, b) => [4, a.0, b.0],
            Node::Difference(a, b) => [5, a.0, b.0],
            Node::Product(a, b) => [6, a.0, b.0],
        };
        let id = NodeId((self.nodes.len() / 3).min(0xFFFF) as u16);
        self.nodes.extend(row);
        id
    }

    /// Defines a label by its address, or by a node that is evaluated at that address. Refused 10 where it is defined already.
    pub fn new_definition(&mut self, name: &str, addr: u16, node: Option<NodeId>) -> Result<()> {
        let row = 3 * self.number(name) as usize;
        if self.labels[row] != UNDEFINED {
            return Err(BAD_LABEL);
        }
        let (state, node) = node.map_or((ADDRESS, 0), |node| (EXPRESSION, node.0));
        self.labels[row..row + 3].copy_from_slice(&[state, addr, node]);
        Ok(())
    }

    /// Gives a defined label another address, and hands back the one that it had.
    pub fn set_address(&mut self, name: &str, new_addr: u16) -> Result<u16> {
        let row = self.row(name).filter(|&row| self.labels[row] != UNDEFINED).ok_or(BAD_LABEL)?;
        Ok(std::mem::replace(&mut self.labels[row + 1], new_addr))
    }

    /// The label's value, as stored in its width.
    pub fn get_value(&self, name: &str) -> Result<Value> {
        let number = *self.numbers.get(name).ok_or(BAD_LABEL)?;
        let [number, width] = raw::label(&self.nodes, &self.labels, number)?;
        Ok(Value { number, width: width as u8 })
    }

    /// The unsigned and the signed evaluation of a node at a location.
    pub fn eval(&self, node: NodeId, location: u16) -> Result<(Value, Value)> {
        let [u, uw, s, sw] = raw::node(&self.nodes, &self.labels, node.0, location)?;
        Ok((Value { number: u, width: uw as u8 }, Value { number: s, width: sw as u8 }))
    }

    /// Moves each label whose address lies in the range, both ends counted, modulo 65536.
    pub fn adjust_label_addresses(&mut self, (left, right): (u16, u16), delta: i16) {
        raw::move_labels(&mut self.labels, left, right, delta as u16)
    }
}
