//! The unifier of two terms (SPECIFICATION 5.1): the one most general list of pairs that has no bound variable in a term, no variable from
//! elsewhere, and no variable bound to a higher one.
//!
//! Terms become nodes, one for each variable number; nodes made equal form classes (union-find). A class with a symbol stands for one term, built
//! once and shared, so the work is polynomial even where the written unifier would be astronomically long. A class below itself would be a proper
//! part of itself: no unifier.

use crate::records::bets::ByVariable;
use crate::records::{Shape, Term, TermRef, Unifier};

/// The unifier, or nothing where none exists.
pub fn unifier(left: &TermRef, right: &TermRef) -> Option<Unifier> {
    match (left.shape(), right.shape()) {
        (Shape::Variable(v), Shape::Variable(w)) if v == w => Some(Unifier::new(Vec::new())),
        (Shape::Variable(v), Shape::Variable(w)) if v < w => Some(Unifier::new(vec![(*w, left.clone())])),
        (Shape::Variable(v), _) => bound(*v, right),
        (_, Shape::Variable(w)) => bound(*w, left),
        (Shape::Symbol(..), Shape::Symbol(..)) => Classes::of(left, right).closed()?.solved(),
    }
}

/// One variable and a term that is not the same variable.
fn bound(variable: u16, term: &TermRef) -> Option<Unifier> {
    let mut free = true;
    term.each_variable(|other| free &= other != variable);
    free.then(|| Unifier::new(vec![(variable, term.clone())]))
}

struct Node<'a> {
    term: &'a TermRef,
    /// where the node's arguments start in the table of arguments
    arguments: usize,
    /// the node above it in its class, or itself
    parent: usize,
    /// how many nodes lie below a class's top one
    weight: usize,
    /// of a class: a node with a symbol
    symbol: Option<usize>,
    /// of a class: its lowest variable
    lowest: Option<u16>,
}

struct Classes<'a> {
    nodes: Vec<Node<'a>>,
    arguments: Vec<usize>,
    variables: ByVariable<usize>,
}

#[derive(Clone)]
enum Found {
    NotYet,
    Below,
    Built(TermRef),
}

impl<'a> Classes<'a> {
    /// Every node in a class of its own; the two terms are nodes 0 and 1.
    fn of(left: &'a TermRef, right: &'a TermRef) -> Self {
        let mut classes = Classes { nodes: Vec::new(), arguments: Vec::new(), variables: ByVariable::default() };
        classes.node(left);
        classes.node(right);
        let mut next = 0;
        while next < classes.nodes.len() {
            let term = classes.nodes[next].term;
            classes.nodes[next].arguments = classes.arguments.len();
            for argument in term.arguments() {
                let node = classes.node(argument);
                classes.arguments.push(node);
            }
            next += 1;
        }
        classes
    }

    fn node(&mut self, term: &'a TermRef) -> usize {
        let fresh = self.nodes.len();
        let (symbol, lowest) = match term.shape() {
            Shape::Variable(variable) => {
                let node = *self.variables.entry(*variable).or_insert(fresh);
                if node != fresh {
                    return node;
                }
                (None, Some(*variable))
            }
            Shape::Symbol(..) => (Some(fresh), None),
        };
        self.nodes.push(Node { term, arguments: 0, parent: fresh, weight: 1, symbol, lowest });
        fresh
    }

    fn class(&mut self, mut node: usize) -> usize {
        while self.nodes[node].parent != node {
            let above = self.nodes[self.nodes[node].parent].parent;
            self.nodes[node].parent = above;
            node = above;
        }
        node
    }

    /// The classes with nodes 0 and 1 made equal, and all that follows from it; nothing where two symbols clash.
    fn closed(mut self) -> Option<Self> {
        let mut equal = vec![(0, 1)];
        while let Some((a, b)) = equal.pop() {
            let (a, b) = (self.class(a), self.class(b));
            if a == b {
                continue;
            }
            if let (Some(s), Some(t)) = (self.nodes[a].symbol, self.nodes[b].symbol) {
                let (Shape::Symbol(f, x), Shape::Symbol(g, y)) = (self.nodes[s].term.shape(), self.nodes[t].term.shape()) else { return None };
                if f != g || x.len() != y.len() {
                    return None;
                }
                let (s, t) = (self.nodes[s].arguments, self.nodes[t].arguments);
                equal.extend((0..x.len()).map(|i| (self.arguments[s + i], self.arguments[t + i])));
            }
            self.join(a, b);
        }
        Some(self)
    }

    fn join(&mut self, a: usize, b: usize) {
        let (top, under) = if self.nodes[a].weight >= self.nodes[b].weight { (a, b) } else { (b, a) };
        self.nodes[under].parent = top;
        self.nodes[top].weight += self.nodes[under].weight;
        self.nodes[top].symbol = self.nodes[top].symbol.or(self.nodes[under].symbol);
        self.nodes[top].lowest = match (self.nodes[top].lowest, self.nodes[under].lowest) {
            (Some(v), Some(w)) => Some(v.min(w)),
            (v, w) => v.or(w),
        };
    }

    /// A pair for each variable but the lowest of a free class; nothing where a class is below itself.
    fn solved(mut self) -> Option<Unifier> {
        let mut variables: Vec<(u16, usize)> = self.variables.iter().map(|(&variable, &node)| (variable, node)).collect();
        variables.sort_unstable();
        let mut found = vec![Found::NotYet; self.nodes.len()];
        self.build(0, &mut found)?;
        let mut pairs = Vec::new();
        for (variable, node) in variables {
            let term = self.build(node, &mut found)?;
            if !matches!(term.shape(), Shape::Variable(stays) if *stays == variable) {
                pairs.push((variable, term));
            }
        }
        Some(Unifier::new(pairs))
    }

    /// The term that a node's class stands for; nothing where a class is met below itself.
    fn build(&mut self, node: usize, found: &mut [Found]) -> Option<TermRef> {
        let start = self.class(node);
        let mut ahead = vec![start];
        while let Some(&class) = ahead.last() {
            let Some(symbol) = self.nodes[class].symbol else {
                if let (Found::NotYet, Some(lowest)) = (&found[class], self.nodes[class].lowest) {
                    found[class] = Found::Built(Term::variable(lowest));
                }
                ahead.pop();
                continue;
            };
            let (term, from) = (self.nodes[symbol].term, self.nodes[symbol].arguments);
            let arguments: Vec<usize> = (0..term.arguments().len()).map(|i| self.class(self.arguments[from + i])).collect();
            match found[class] {
                Found::Built(_) => {
                    ahead.pop();
                }
                Found::NotYet => {
                    found[class] = Found::Below;
                    for argument in arguments {
                        match found[argument] {
                            Found::Built(_) => {}
                            Found::Below => return None,
                            Found::NotYet => ahead.push(argument),
                        }
                    }
                }
                Found::Below => {
                    let parts: Option<Vec<TermRef>> = arguments.iter().map(|&argument| found[argument].built()).collect();
                    let Shape::Symbol(name, _) = term.shape() else { return None };
                    found[class] = Found::Built(Term::symbol(*name, parts?));
                    ahead.pop();
                }
            }
        }
        found[start].built()
    }
}

impl Found {
    fn built(&self) -> Option<TermRef> {
        match self {
            Found::Built(term) => Some(term.clone()),
            Found::NotYet | Found::Below => None,
        }
    }
}
