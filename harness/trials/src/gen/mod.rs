//! Inputs of every kind, from a seed. `sets` chooses among all kinds of sound files and stands on the rest: `limits`, `typed`, `schemas`,
//! `named`, and these on `numbers` and `draft`. `long` makes files of long rules, many of them from those sets.

pub mod damage;
pub mod draft;
pub mod limits;
pub mod long;
pub mod named;
pub mod numbers;
pub mod pages;
pub mod rows;
pub mod sample;
pub mod schemas;
pub mod sets;
pub mod sizes;
pub mod typed;
