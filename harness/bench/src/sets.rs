//! Larger template sets: of the sizes in the source's Table 1, and hostile ones.
use crate::files::{symbol, Entry, Set};
use seeds::Rng;
use std::collections::BTreeSet;

/// Element names and states of a small page schema in the manner of XHTML, which uses all 8 states.
pub const HTML: u8 = 0;
pub const HEAD: u8 = 1;
pub const TITLE: u8 = 2;
pub const BODY: u8 = 3;
pub const DIV: u8 = 4;
pub const P: u8 = 5;
pub const UL: u8 = 6;
pub const LI: u8 = 7;
pub const A: u8 = 8;
pub const NAMES: u8 = 9;
const FLOW: u8 = 4;
const INLINE: u8 = 5;
const ITEMS: u8 = 6;
const DONE: u8 = 7;

/// html holds head and body, head one title, body and div and li any of div, p, ul; ul holds li, p holds a, a holds a.
pub fn page_schema() -> Set {
    let schema = [
        [0, HTML, 1, DONE],
        [1, HEAD, 2, 3],
        [2, TITLE, DONE, DONE],
        [3, BODY, FLOW, DONE],
        [FLOW, DIV, FLOW, FLOW],
        [FLOW, P, INLINE, FLOW],
        [FLOW, UL, ITEMS, FLOW],
        [INLINE, A, INLINE, INLINE],
        [ITEMS, LI, FLOW, ITEMS],
    ];
    Set {
        names: NAMES,
        nonterminals: 1,
        states: 8,
        rules: BTreeSet::new(),
        schema: BTreeSet::from(schema),
        endings: BTreeSet::from([FLOW, INLINE, ITEMS, DONE]),
    }
}

/// A set of so many nonterminals and rules, whose longest reduced form has so many tags. The page is a chain of openers (html, a
/// head, body, then div), a content and a chain of closers, as a program prints header, content and footer. The content is made of
/// pairs X and Y: X gives start div and Y, Y gives another X and end div; X also gives the empty string, a p, or other X in a row.
pub fn program(nonterminals: u8, rules: usize, tags: u8) -> Set {
    let mut set = page_schema();
    set.nonterminals = nonterminals;
    let contents = frame(&mut set, tags);
    let pairs = (nonterminals - contents) / 2;
    let x = |i: u8| contents + 2 * (i % pairs);
    for i in 0..pairs {
        let (this, next) = (x(i), x(i + 1));
        set.rules.insert([this, 2, DIV, symbol(this + 1)]);
        set.rules.insert([this + 1, 2, symbol(next), 32 + DIV]);
    }
    set.rules.insert([x(pairs - 1), 0, 255, 255]);
    let mut numbers = Rng::new(rules as u64);
    assert!(set.rules.len() <= rules);
    while set.rules.len() < rules {
        let [i, j, k] = [0; 3].map(|_: u8| x(numbers.below(pairs as usize) as u8));
        let more: [Entry; 4] = [
            [i, 0, 255, 255],
            [i, 2, P, 32 + P],
            [i, 2, symbol(j), symbol(k)],
            [i, 1, symbol(j), 255],
        ];
        set.rules.insert(more[numbers.below(4)]);
    }
    set
}

/// Start, head, openers and closers; the first nonterminal behind them, which is the content's.
fn frame(set: &mut Set, tags: u8) -> u8 {
    // 1 to 3 are the head and its parts, 4 is content and closers, 5 and 6 open html and body, 7 closes both, 8 and 9 are two div.
    let steps = tags / 2 - 1;
    let content = 10 + 2 * steps;
    let (mut opener, mut closer) = (6, 7);
    set.rules.extend([
        [1, 2, HEAD, symbol(2)],
        [2, 2, symbol(3), 32 + HEAD],
        [3, 2, TITLE, 32 + TITLE],
        [5, 2, HTML, symbol(1)],
        [6, 2, symbol(5), BODY],
        [7, 2, 32 + BODY, 32 + HTML],
        [8, 2, DIV, DIV],
        [9, 2, 32 + DIV, 32 + DIV],
    ]);
    for i in 0..steps {
        let (next, after) = (10 + 2 * i, 11 + 2 * i);
        set.rules.insert([next, 2, symbol(opener), symbol(8)]);
        set.rules.insert([after, 2, symbol(9), symbol(closer)]);
        (opener, closer) = (next, after);
    }
    set.rules.insert([0, 2, symbol(opener), symbol(4)]);
    set.rules.insert([4, 2, symbol(content), symbol(closer)]);
    content
}

/// Hostile: two nonterminals with width² images each, and so many rules that all give their pair. Their forms have `2 * half` starts
/// and as many ends, with letters inside them, so that each of the width⁴ joins cancels all tags; the whole is one element and always
/// the same, so that each rule has one image. With 64 rules the set is crowded, in the round of those joins.
pub fn hostile(width: u8, half: u8, rules: u8, schema_rules: usize) -> Set {
    let tag = width;
    let mut set = Set {
        names: width + 1,
        nonterminals: 64,
        states: 8,
        ..Set::default()
    };
    set.endings = BTreeSet::from([0]);
    // Each letter has the pair (0, 0) and one of its own; the tag has (0, 0) alone.
    set.schema = (0..width)
        .flat_map(|i| [[0, i, 0, 0], [1 + i % 7, i, 0, 1 + i / 7]])
        .collect();
    set.schema.insert([0, tag, 0, 0]);
    // Rules that never apply: no word leads from state 7 to an ending one inside the tag.
    let idle = (1..8).flat_map(|x| (0..8).map(move |z| [x, tag, 7, z]));
    set.schema
        .extend(idle.take(schema_rules.saturating_sub(2 * width as usize + 1)));
    let (letter, opener, closer, left, right, steps) = (1, 2, 3, 4, 5, 6);
    set.rules = (0..width).map(|i| [letter, 2, i, 32 + i]).collect();
    let (starts, ends, free) = doubled(&mut set, tag, half, steps);
    set.rules.extend([
        [opener, 2, starts, symbol(letter)],
        [closer, 2, symbol(letter), ends],
        [left, 2, symbol(opener), symbol(opener)],
        [right, 2, symbol(closer), symbol(closer)],
    ]);
    for i in 0..rules {
        let x = sharer(i);
        set.rules.insert([x, 2, symbol(left), symbol(right)]);
        // The start gives the others, to make them useful; those that make up the pair are so already, and are no pages.
        if x >= free {
            set.rules.insert([0, 1, symbol(x), 255]);
        }
    }
    set
}

/// The left side of the i-th rule over the pair: the start first, then from the last nonterminal down.
fn sharer(i: u8) -> u8 {
    if i == 0 {
        0
    } else {
        64 - i
    }
}

/// The same, but each of those rules' images is found in round 1, by a rule of its own: it stands among the first rows, where it else
/// stands among the last.
pub fn hostile_early(width: u8, half: u8, rules: u8) -> Set {
    let mut set = hostile(width, half, rules, 0);
    set.rules
        .extend((0..rules).map(|i| [sharer(i), 2, width, 32 + width]));
    set
}

/// The same with forms of 2 tags, but all of those rules' images but the start's are found in the round that finds those of the pair, and
/// between them: they stand in the middle of the rows.
pub fn hostile_middle(width: u8, rules: u8) -> Set {
    let mut set = hostile(width, 1, rules, 0);
    let (right, step, twice, first) = (5, 6, 7, 8);
    // The pair's right nonterminal becomes the last one, and the left sides of its rules stand before it.
    let moved = |x: u8| match x {
        _ if x == right => 63,
        _ if x > right => first + 64 - x,
        _ => x,
    };
    let place = |s: u8| match s {
        64..=127 => symbol(moved(s - 64)),
        _ => s,
    };
    set.rules = set
        .rules
        .iter()
        .map(|r| [moved(r[0]), r[1], place(r[2]), place(r[3])])
        .collect();
    // A start of the tag in two steps, so that the element is found in round 3.
    set.rules
        .extend([[step, 1, width, 255], [twice, 1, symbol(step), 255]]);
    set.rules
        .extend((1..rules).map(|i| [first + i, 2, symbol(twice), 32 + width]));
    set
}

/// Symbols that give `half` starts and `half` ends of a tag (half is 1, 2, 4 or 8), and the next free nonterminal.
fn doubled(set: &mut Set, tag: u8, half: u8, steps: u8) -> (u8, u8, u8) {
    let (mut starts, mut ends, mut free, mut n) = (tag, 32 + tag, steps, 1);
    while n < half {
        set.rules.insert([free, 2, starts, starts]);
        set.rules.insert([free + 1, 2, ends, ends]);
        (starts, ends) = (symbol(free), symbol(free + 1));
        (free, n) = (free + 2, 2 * n);
    }
    (starts, ends, free)
}
