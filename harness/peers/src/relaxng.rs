//! RELAX NG's XML syntax for several schemas at once, so that one run of a program judges the pages of all of them.
//!
//! The element names of schema k are spelled `k.e0`, `k.e1` and so on with a letter before them, so no two schemas share a name.
//! RELAX NG's start is one element, as a page is: for each schema the choice of those elements that state 0 derives alone, by a rule
//! 0, a, Y, Z whose Z is ending. That state 0 may also derive nothing, or several elements, is of no account to either.
use crate::expression::{of_state, Expression};
use crate::schema::Schema;
use std::collections::BTreeSet;
use std::fmt::Write;

/// The name of element a under schema k.
pub fn element(k: usize, a: u8) -> String {
    format!("s{k}.e{a}")
}

fn state(k: usize, y: u8) -> String {
    format!("s{k}.q{y}")
}

/// A definition for each letter lets expressions refer to it, which keeps them short.
fn letter(k: usize, a: u8, y: u8) -> String {
    format!("s{k}.e{a}.q{y}")
}

fn write_letter(out: &mut String, k: usize, a: u8, y: u8) {
    write!(out, "<ref name=\"{}\"/>", letter(k, a, y)).unwrap();
}

fn write_expression(out: &mut String, k: usize, e: &Expression) {
    let (name, parts) = match e {
        Expression::Empty => return out.push_str("<empty/>"),
        Expression::Letter(a, y) => return write_letter(out, k, *a, *y),
        Expression::Choice(l, r) => ("choice", vec![l, r]),
        Expression::Group(l, r) => ("group", vec![l, r]),
        Expression::Many(e) => ("zeroOrMore", vec![e]),
    };
    write!(out, "<{name}>").unwrap();
    for part in parts {
        write_expression(out, k, part);
    }
    write!(out, "</{name}>").unwrap();
}

/// The outermost elements: those of state 0 with nothing behind them.
fn write_roots(out: &mut String, k: usize, schema: &Schema) {
    let alone = schema.rules_of(0).filter(|r| schema.ends(r[3]));
    let letters: BTreeSet<(u8, u8)> = alone.map(|r| (r[1], r[2])).collect();
    for (a, y) in letters {
        write_letter(out, k, a, y);
    }
}

fn write_states(out: &mut String, k: usize, schema: &Schema) {
    for y in 0..schema.states {
        write!(out, "<define name=\"{}\">", state(k, y)).unwrap();
        match of_state(schema, y) {
            None => out.push_str("<notAllowed/>"),
            Some(e) => write_expression(out, k, &e),
        }
        out.push_str("</define>\n");
    }
}

fn write_letters(out: &mut String, k: usize, schema: &Schema) {
    let letters: BTreeSet<(u8, u8)> = schema.rules.iter().map(|r| (r[1], r[2])).collect();
    for (a, y) in letters {
        writeln!(
            out,
            "<define name=\"{}\"><element name=\"{}\"><ref name=\"{}\"/></element></define>",
            letter(k, a, y),
            element(k, a),
            state(k, y)
        )
        .unwrap();
    }
}

/// How many letters and signs the expressions of all states have.
pub fn size(schema: &Schema) -> usize {
    let of = |y| of_state(schema, y).map_or(0, |e| e.size());
    (0..schema.states).map(of).sum()
}

/// The grammar of these schemas. The choice that nobody can make stands for those that have no valid page.
pub fn grammar(schemas: &[Schema]) -> String {
    let mut out = String::from(
        "<grammar xmlns=\"http://relaxng.org/ns/structure/1.0\">\n<start><choice><notAllowed/>\n",
    );
    for (k, schema) in schemas.iter().enumerate() {
        write_roots(&mut out, k, schema);
    }
    out.push_str("</choice></start>\n");
    for (k, schema) in schemas.iter().enumerate() {
        write_states(&mut out, k, schema);
        write_letters(&mut out, k, schema);
    }
    out.push_str("</grammar>\n");
    out
}
