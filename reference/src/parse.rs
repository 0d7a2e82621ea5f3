//! Parse: the graph of links over a line, with the table expanded as the line needs it.

use crate::table::{is_terminal, Symbol, Table};
use crate::Refusal;

const LONGEST_LINE: usize = 255;
const MOST_LINKS: usize = 4096;

#[derive(Clone, Copy, Debug, PartialEq, Eq)]
pub struct Verdict {
    pub accepted: bool,
    pub links: usize,
}

/// A position and a set, with the newest of its links.
struct Node {
    set: usize,
    newest: Option<usize>,
}

/// A link to the node under it, with the link of the same node that came before it.
struct Link {
    under: usize,
    before: Option<usize>,
}

struct Graph {
    nodes: Vec<Node>,
    links: Vec<Link>,
    pool: usize,
    /// The first node of the position at hand: its nodes are the last ones. And the node of each set there.
    start: usize,
    at: Vec<Option<usize>>,
    /// The level of paths at hand and the one under it. Stamps instead of clearing: node n was met in the level whose stamp it bears.
    level: Vec<usize>,
    below: Vec<usize>,
    stamps: Vec<u32>,
    stamp: u32,
}

pub fn parse(table: &mut Table, pool: usize, line: &[Symbol]) -> Result<Verdict, Refusal> {
    if pool > MOST_LINKS {
        return Err(Refusal::BadPool);
    }
    if line.len() > LONGEST_LINE {
        return Err(Refusal::LongLine);
    }
    if !line.iter().all(|&x| is_terminal(x)) {
        return Err(Refusal::BadToken);
    }
    let mut graph = Graph::new(table.sets().len(), pool);
    for &token in line {
        graph.settle(table)?;
        if !graph.shift(table, token)? {
            return Ok(Verdict { accepted: false, links: graph.links.len() });
        }
    }
    graph.settle(table)?;
    let accepted = graph.here().iter().any(|node| table.set(node.set).expansion.as_ref().is_some_and(|e| e.accepts));
    Ok(Verdict { accepted, links: graph.links.len() })
}

impl Graph {
    fn new(sets: usize, pool: usize) -> Graph {
        let mut graph = Graph {
            nodes: Vec::new(),
            links: Vec::new(),
            pool,
            start: 0,
            at: vec![None; sets],
            level: Vec::new(),
            below: Vec::new(),
            stamps: Vec::new(),
            stamp: 0,
        };
        graph.node_of(0);
        graph
    }

    fn here(&self) -> &[Node] {
        &self.nodes[self.start..]
    }

    /// The node of a set at the position at hand, made if need be.
    fn node_of(&mut self, set: usize) -> usize {
        if let Some(node) = self.at[set] {
            return node;
        }
        let node = self.nodes.len();
        self.nodes.push(Node { set, newest: None });
        self.stamps.push(0);
        self.at[set] = Some(node);
        node
    }

    /// The nodes under a node.
    fn under(&self, node: usize) -> impl Iterator<Item = usize> + '_ {
        let mut next = self.nodes[node].newest;
        std::iter::from_fn(move || {
            let link = &self.links[next?];
            next = link.before;
            Some(link.under)
        })
    }

    /// Adds a link unless it is there.
    fn link(&mut self, set: usize, under: usize) -> Result<(), Refusal> {
        let node = self.node_of(set);
        if self.under(node).any(|n| n == under) {
            return Ok(());
        }
        if self.links.len() == self.pool {
            return Err(Refusal::NoLinks);
        }
        let before = self.nodes[node].newest.replace(self.links.len());
        self.links.push(Link { under, before });
        Ok(())
    }

    /// Steps 1 and 2 of 01 until no set here is unexpanded.
    fn settle(&mut self, table: &mut Table) -> Result<(), Refusal> {
        loop {
            self.saturate(table)?;
            let sets = self.here().iter().map(|node| node.set);
            let Some(set) = sets.filter(|&s| table.set(s).expansion.is_none()).min() else { return Ok(()) };
            if !table.expand(set) {
                return Err(Refusal::NoSets);
            }
        }
    }

    /// Passes over the nodes here, those that come meanwhile too. Where each new link came with its node, no node that was visited
    /// has gained a path.
    fn saturate(&mut self, table: &Table) -> Result<(), Refusal> {
        loop {
            let (nodes, links) = (self.nodes.len(), self.links.len());
            let mut node = self.start;
            while node < self.nodes.len() {
                self.reduce(table, node)?;
                node += 1;
            }
            if self.links.len() - links == self.nodes.len() - nodes {
                return Ok(());
            }
        }
    }

    fn reduce(&mut self, table: &Table, node: usize) -> Result<(), Refusal> {
        let Some(expansion) = &table.set(self.nodes[node].set).expansion else { return Ok(()) };
        for &number in &expansion.reductions {
            let rule = table.rule(number);
            self.descend(node, rule.right.len());
            for i in 0..self.level.len() {
                let end = self.level[i];
                let expansion = table.set(self.nodes[end].set).expansion.as_ref();
                if let Some(target) = expansion.and_then(|e| e.transitions.get(rule.left)) {
                    self.link(target, end)?;
                }
            }
        }
        Ok(())
    }

    /// Makes the level where the paths of k links from a node end, each node once.
    fn descend(&mut self, node: usize, k: usize) {
        self.level.clear();
        self.level.push(node);
        for _ in 0..k {
            self.stamp += 1;
            self.below.clear();
            for &node in &self.level {
                let mut next = self.nodes[node].newest;
                while let Some(link) = next {
                    let Link { under, before } = self.links[link];
                    if self.stamps[under] != self.stamp {
                        self.stamps[under] = self.stamp;
                        self.below.push(under);
                    }
                    next = before;
                }
            }
            std::mem::swap(&mut self.level, &mut self.below);
        }
    }

    /// Step 3: says whether a node here has a transition on the token.
    fn shift(&mut self, table: &Table, token: Symbol) -> Result<bool, Refusal> {
        let nodes = self.start..self.nodes.len();
        for node in nodes.clone() {
            self.at[self.nodes[node].set] = None;
        }
        self.start = nodes.end;
        for node in nodes {
            let expansion = table.set(self.nodes[node].set).expansion.as_ref();
            if let Some(target) = expansion.and_then(|e| e.transitions.get(token)) {
                self.link(target, node)?;
            }
        }
        Ok(!self.here().is_empty())
    }
}
