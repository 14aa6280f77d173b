//! Pages as XML: start and end tags and nothing else.
use crate::relaxng::element;

/// The depth after each tag, names left aside.
fn depths(page: &[u8]) -> impl Iterator<Item = i64> + '_ {
    page.iter().scan(0, |depth, &byte| {
        *depth += if byte < 32 { 1 } else { -1 };
        Some(*depth)
    })
}

/// How deep the page nests, names left aside.
pub fn nesting(page: &[u8]) -> usize {
    depths(page).max().unwrap_or(0).max(0) as usize
}

/// Does the page open one element at its first tag and close it at its last, names left aside? XML asks it of a document.
pub fn has_one_root(page: &[u8]) -> bool {
    let fits = |(i, d): (usize, i64)| if i + 1 < page.len() { d > 0 } else { d == 0 };
    !page.is_empty() && depths(page).enumerate().all(fits)
}

/// The page under schema k.
pub fn xml(k: usize, page: &[u8]) -> String {
    let mut out = String::new();
    for &byte in page {
        match byte {
            0..=31 => out.push_str(&format!("<{}>", element(k, byte))),
            _ => out.push_str(&format!("</{}>", element(k, byte - 32))),
        }
    }
    out
}
