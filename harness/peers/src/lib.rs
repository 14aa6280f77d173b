//! Schemas (Rules, section 3) written as RELAX NG and pages as XML, so that xmllint and jing can judge what the page reader judges.
//!
//! [`schema`] has the schemas, [`expression`] turns what a state derives into a regular expression, [`relaxng`] writes the grammar,
//! [`pages`] makes pages, [`markup`] writes them, [`tools`] runs the two programs.

pub mod expression;
pub mod markup;
pub mod pages;
pub mod relaxng;
pub mod schema;
pub mod tools;
