//! Words of tags: balanced, mismatched, reduced, nested; their outermost elements.

/// Whether a byte is a start tag.
pub fn is_start(tag: u8) -> bool {
    tag < 32
}

/// The balanced parts of a word: `holds(i, j)` for the part from i up to j.
pub struct Balanced {
    size: usize,
    table: Vec<bool>,
}

impl Balanced {
    /// A string is balanced if it is empty, or an element around a balanced string and a balanced string behind it.
    pub fn of(word: &[u8]) -> Self {
        let size = word.len() + 1;
        let mut all = Balanced {
            size,
            table: vec![false; size * size],
        };
        for length in 0..size {
            for i in 0..size - length {
                let j = i + length;
                let so = i == j || (i + 1..j).any(|k| all.split(word, i, k, j));
                all.table[i * size + j] = so;
            }
        }
        all
    }

    fn split(&self, word: &[u8], i: usize, k: usize, j: usize) -> bool {
        is_start(word[i]) && word[k] == word[i] + 32 && self.holds(i + 1, k) && self.holds(k + 1, j)
    }

    pub fn holds(&self, i: usize, j: usize) -> bool {
        self.table[i * self.size + j]
    }
}

/// Whether a word is one element: a start tag, a balanced string, and the end tag of that start's name.
pub fn is_one_element(word: &[u8]) -> bool {
    match word {
        [start, inside @ .., end] => {
            is_start(*start) && *end == start + 32 && Balanced::of(inside).holds(0, inside.len())
        }
        _ => false,
    }
}

/// The places where the outermost elements of a balanced word begin: the start tags with a balanced string before them.
pub fn outermost(word: &[u8]) -> Vec<usize> {
    let balanced = Balanced::of(word);
    (0..word.len())
        .filter(|&place| is_start(word[place]) && balanced.holds(0, place))
        .collect()
}

/// Whether somewhere the end tag behind a start tag and a balanced string has another name.
pub fn mismatched(word: &[u8]) -> bool {
    let balanced = Balanced::of(word);
    (0..word.len()).any(|i| {
        (i + 1..word.len()).any(|j| {
            is_start(word[i])
                && !is_start(word[j])
                && word[j] != word[i] + 32
                && balanced.holds(i + 1, j)
        })
    })
}

/// The places of the tags that stay when neighbours start a, end a are struck out until none is
/// left.
pub fn reduced(word: &[u8]) -> Vec<usize> {
    let mut kept: Vec<usize> = (0..word.len()).collect();
    let meets = |pair: &[usize]| is_start(word[pair[0]]) && word[pair[1]] == word[pair[0]] + 32;
    while let Some(at) = kept.windows(2).position(meets) {
        kept.drain(at..at + 2);
    }
    kept
}

/// The place of the tag with which a page's beginning first nests past 16. Every beginning of a
/// balanced page has starts unmatched and nothing else: its starts minus its ends.
pub fn nests_past_16(page: &[u8]) -> Option<usize> {
    let mut depth = 0;
    page.iter().position(|&tag| {
        depth += if is_start(tag) { 1 } else { -1 };
        depth > 16
    })
}
