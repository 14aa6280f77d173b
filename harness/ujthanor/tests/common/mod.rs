//! Template files that several tests use, each those that it needs.
#![allow(dead_code)]

/// The README's set: its one page is `<a><b></b></a>`, and its schema asks for exactly one b among any a.
pub const K: [u8; 45] = [
    2, 3, 2, 0, 16, 0, 3, 0, 28, 0, 4, 0, 44, 0, 1, 0, 0, 2, 65, 32, 1, 2, 0, 66, 2, 2, 1, 33, 0,
    0, 0, 1, 0, 0, 1, 0, 0, 1, 1, 1, 1, 0, 1, 1, 1,
];

/// Its page as one rule of four symbols, under the same schema.
pub const LONG: [u8; 47] = [
    2, 1, 2, 0, 16, 0, 1, 0, 30, 0, 4, 0, 46, 0, 1, 0, 0, 4, 0, 1, 33, 32, 255, 255, 255, 255, 255,
    255, 255, 255, 0, 0, 0, 1, 0, 0, 1, 0, 0, 1, 1, 1, 1, 0, 1, 1, 1,
];

/// One name, under a schema whose one state is ending and takes any elements.
pub fn open(nonterminals: u8, rules: &[[u8; 4]]) -> Vec<u8> {
    let (count, end) = (rules.len() as u8, 16 + 4 * rules.len() as u8);
    let mut file = vec![1, nonterminals, 1, 0, 16, 0, count, 0];
    file.extend([end, 0, 1, 0, end + 4, 0, 1, 0]);
    file.extend(rules.concat());
    file.extend([0; 5]);
    file
}
