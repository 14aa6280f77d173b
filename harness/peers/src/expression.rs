//! What a state derives, as a regular expression over elements.
//!
//! A rule X, a, Y, Z is right-linear in Z: X gives the letter (a, Y), then Z. RELAX NG lets a definition come back to itself only
//! inside an element, so the way through Z is taken out by eliminating states one by one (Kleene).
use crate::schema::Schema;
use std::rc::Rc;

/// A letter is an element of name a whose content is what state Y derives.
#[derive(Clone, Debug, PartialEq, Eq)]
pub enum Expression {
    Empty,
    Letter(u8, u8),
    Choice(Rc<Expression>, Rc<Expression>),
    Group(Rc<Expression>, Rc<Expression>),
    Many(Rc<Expression>),
}

use Expression::*;

/// `None` derives nothing.
type Edge = Option<Rc<Expression>>;

impl Expression {
    /// How many letters and signs it has.
    pub fn size(&self) -> usize {
        match self {
            Empty | Letter(..) => 1,
            Choice(l, r) | Group(l, r) => 1 + l.size() + r.size(),
            Many(e) => 1 + e.size(),
        }
    }
}

fn choice(left: Edge, right: Edge) -> Edge {
    match (left, right) {
        (None, e) | (e, None) => e,
        (Some(l), Some(r)) if l == r => Some(l),
        (Some(l), Some(r)) => Some(Rc::new(Choice(l, r))),
    }
}

fn group(left: Edge, right: Edge) -> Edge {
    let (l, r) = (left?, right?);
    match (&*l, &*r) {
        (Empty, _) => Some(r),
        (_, Empty) => Some(l),
        _ => Some(Rc::new(Group(l, r))),
    }
}

fn many(inner: Edge) -> Edge {
    match inner {
        None => Some(Rc::new(Empty)),
        Some(e) if *e == Empty => Some(e),
        Some(e) => Some(Rc::new(Many(e))),
    }
}

/// The edges between the states by Z, and one place more behind the ending states.
fn edges(schema: &Schema) -> Vec<Vec<Edge>> {
    let q = schema.states as usize;
    let mut edges: Vec<Vec<Edge>> = vec![vec![None; q + 1]; q + 1];
    for &[x, a, y, z] in &schema.rules {
        let edge = &mut edges[x as usize][z as usize];
        *edge = choice(edge.take(), Some(Rc::new(Letter(a, y))));
    }
    for &e in &schema.endings {
        edges[e as usize][q] = Some(Rc::new(Empty));
    }
    edges
}

/// The cheapest state to take out next: that with the fewest ways through it.
fn cheapest(edges: &[Vec<Edge>], left: &[usize], goal: usize) -> usize {
    let ways = |k: usize| {
        let inward = left
            .iter()
            .filter(|&&i| i != k && edges[i][k].is_some())
            .count();
        let outward = left
            .iter()
            .chain([&goal])
            .filter(|&&j| j != k && edges[k][j].is_some())
            .count();
        inward * outward
    };
    *left[1..].iter().min_by_key(|&&k| ways(k)).unwrap()
}

/// Every way through state k becomes an edge of its own.
fn eliminate(edges: &mut [Vec<Edge>], left: &[usize], goal: usize, k: usize) {
    let round = many(edges[k][k].clone());
    for &i in left {
        for &j in left.iter().chain([&goal]) {
            if i != k && j != k {
                let way = group(
                    edges[i][k].clone(),
                    group(round.clone(), edges[k][j].clone()),
                );
                edges[i][j] = choice(edges[i][j].take(), way);
            }
        }
    }
}

/// What the state derives; `None` where no way by Z leads to an ending state.
pub fn of_state(schema: &Schema, state: u8) -> Edge {
    let goal = schema.states as usize;
    let mut edges = edges(schema);
    let mut left: Vec<usize> = vec![state as usize];
    left.extend((0..goal).filter(|&s| s != state as usize));
    while left.len() > 1 {
        let k = cheapest(&edges, &left, goal);
        eliminate(&mut edges, &left, goal, k);
        left.retain(|&s| s != k);
    }
    let x = state as usize;
    group(many(edges[x][x].clone()), edges[x][goal].clone())
}
