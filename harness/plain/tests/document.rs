//! The cases of the rules (sections 7 and 11): file K, and both sides of each limit.

use plain::file::File;
use plain::{check, fragment, join, net_depth, page, Row, ROW, TABLE};

const K: [u8; 45] = [
    2, 3, 2, 0, 16, 0, 3, 0, 28, 0, 4, 0, 44, 0, 1, 0, 0, 2, 65, 32, 1, 2, 0, 66, 2, 2, 1, 33, 0,
    0, 0, 1, 0, 0, 1, 0, 0, 1, 1, 1, 1, 0, 1, 1, 1,
];

/// A file from its numbers and bodies, sorted as the file asks.
fn file(head: [u8; 3], mut rules: Vec<[u8; 4]>, schema: &[[u8; 4]], ending: &[u8]) -> Vec<u8> {
    rules.sort();
    let [names, nonterminals, states] = head;
    let rules = &rules;
    File {
        names,
        nonterminals,
        states,
        rules,
        schema,
        ending,
    }
    .bytes()
}

fn line(file: &[u8]) -> (u32, u64, u64) {
    check(file, &mut vec![7; TABLE], 64)
}

fn summary(bytes: &[u8]) -> Row {
    let mut row = [9; ROW];
    assert_eq!(fragment(&K, bytes, &mut row), (0, 0));
    row
}

fn joined(left: &[u8], right: &[u8]) -> (u32, Row) {
    let mut row = [9; ROW];
    let (answer, number) = join(&K, &summary(left), &summary(right), &mut row);
    assert_eq!(number, 0);
    (answer, row)
}

/// The last entry of a row, which has the counts.
const COUNTS: usize = ROW - 1;

fn no_tags(relation: u64, count: u64) -> Row {
    let mut row = [0; ROW];
    row[3] = relation;
    row[COUNTS] = count;
    row
}

#[test]
fn file_k() {
    let mut table = vec![7; TABLE + 3];
    assert_eq!(check(&K, &mut table, 64), (0, 4, 3));
    let rows: Vec<Row> = table[..3 * ROW].as_chunks().0.to_vec();
    assert_eq!(rows[0], no_tags(2, 1));
    let mut middle = no_tags(2, 1);
    middle[0] = 2;
    assert_eq!(rows[1], middle);
    let mut opening = no_tags(513, 4);
    (opening[0], opening[4]) = (65_537, 2);
    assert_eq!(rows[2], opening);
    assert!(table[3 * ROW..TABLE].iter().all(|&entry| entry == 0));
    assert_eq!(table[TABLE..], [7, 7, 7]);
}

#[test]
fn pages() {
    assert_eq!(page(&K, &[1, 33]), (0, 0));
    assert_eq!(summary(&[1, 33]), no_tags(2, 1));
    assert_eq!(page(&K, &[]), (14, 0));
    assert_eq!(summary(&[]), no_tags(513, 0));
    assert_eq!(page(&K, &[0, 1, 33, 32]), (0, 0));
    assert_eq!(page(&K, &[0, 32, 1, 33]), (14, 0));
    assert_eq!(summary(&[0, 32, 1, 33]), no_tags(2, 2));
    assert_eq!(page(&K, &[1, 33, 1, 33]), (14, 0));
    assert_eq!(page(&K, &[0, 33]), (11, 1));
    assert_eq!(page(&K, &[0]), (13, 0));
    assert_eq!(page(&K, &[32]), (13, 0));
    assert_eq!(page(&K, &[2]), (10, 0));
    assert_eq!(page(&K, &[32, 0, 33]), (11, 2));
}

/// One name, under a schema whose one state is ending and takes any elements: what it does not take is left to the count.
fn open(nonterminals: u8, rules: Vec<[u8; 4]>) -> Vec<u8> {
    file([1, nonterminals, 1], rules, &[[0, 0, 0, 0]], &[0])
}

#[test]
fn one_outermost_element() {
    let open = open(1, vec![]);
    for elements in 0..6 {
        let told = if elements == 1 { 0 } else { 14 };
        assert_eq!(page(&open, &[0, 32].repeat(elements)), (told, 0));
        // Inside one element there may be any number.
        let inside = [vec![0], [0, 32].repeat(elements), vec![32]].concat();
        assert_eq!(page(&open, &inside), (0, 0));
    }
}

#[test]
fn counts_stand_beside_their_relations() {
    // No element, end a, one, start a, two, start b, three.
    let word = [32, 1, 33, 0, 1, 33, 0, 32, 1, 0, 32, 0, 32, 0, 32];
    assert_eq!(summary(&word)[COUNTS], 4 + 2 * 16 + 2 * 64);
    assert_eq!(summary(&[0; 16])[COUNTS], 0);
    // The last of seventeen, which only a join can give.
    assert_eq!(joined(&[32; 16], &[0, 32, 0, 32]).1[COUNTS], 2 << 32);
}

#[test]
fn deep_pages() {
    let deep = [vec![0; 15], vec![1, 33], vec![32; 15]].concat();
    assert_eq!(page(&K, &deep), (0, 0));
    assert_eq!(page(&K, &[0; 17]), (12, 16));
    let past = [vec![0; 17], vec![32]].concat();
    assert_eq!(page(&K, &past), (12, 16));
    assert_eq!(page(&K, &[32; 17]), (12, 16));
}

#[test]
fn fragments() {
    let mut row = [0; ROW];
    row[0] = 256 + 65_536;
    row[3..6].fill(513);
    assert_eq!(summary(&[32, 0]), row);
    assert_eq!(net_depth(&K, &row), (0, 0, 0));
    assert_eq!(net_depth(&K, &summary(&[0; 16])), (0, 0, 16));
    assert_eq!(net_depth(&K, &summary(&[32; 16])), (0, 0, -16));
}

#[test]
fn joins() {
    assert_eq!(joined(&[0, 1], &[33, 32]), (0, no_tags(2, 1)));
    assert_eq!(joined(&[0, 32], &[1, 33]), (0, no_tags(2, 2)));
    assert_eq!(joined(&[1, 33, 0], &[32]), (0, no_tags(2, 2)));
    assert_eq!(joined(&[], &[0, 32]).1[COUNTS], 1);
    assert_eq!(joined(&[0, 32, 0, 32], &[0, 32, 0, 32]).1[COUNTS], 2);
    assert_eq!(joined(&[0], &[33]), (11, [0; ROW]));
    assert_eq!(joined(&[0; 9], &[0; 7]), (0, summary(&[0; 16])));
    assert_eq!(joined(&[0; 9], &[0; 8]), (12, [0; ROW]));
    assert_eq!(joined(&[0; 16], &[0, 32]).0, 0);
}

#[test]
fn ten_and_ten_and_twenty() {
    // Ten starts, joined with ten starts and twenty ends: the right one reduces to ten ends.
    let right = [vec![0; 10], vec![32; 20]].concat();
    let (answer, row) = joined(&[0; 10], &right);
    assert_eq!((answer, row[0]), (0, 0));
    let whole = [vec![0; 20], vec![32; 20]].concat();
    assert_eq!(page(&K, &whole), (12, 16));
}

#[test]
fn joins_of_lent_rows() {
    let (good, mut row) = (summary(&[0]), [9; 23]);
    assert_eq!(join(&K, &good[..ROW - 1], &good, &mut row), (15, 0));
    assert_eq!(row[ROW - 1..], [0, 9, 9]);
    let mut named = good;
    named[0] += 1;
    assert_eq!(join(&K, &good, &named, &mut row), (15, 0));
    assert_eq!(net_depth(&K, &named), (15, 0, 0));
    let mut huge = [0; ROW];
    huge[0] = u64::MAX << 16;
    assert_eq!(net_depth(&K, &huge), (15, 0, 0));
    let mut short = [9; ROW - 1];
    assert_eq!(join(&[], &[], &[], &mut short), (17, 0));
    assert_eq!(fragment(&[], &[], &mut short), (17, 0));
    assert_eq!(short, [9; ROW - 1]);
}

/// Whether a row is a summary under K: net depth and both sides of a join say the same.
fn is_summary(row: &Row) -> bool {
    let mut whole = [9; ROW];
    let answers = [
        net_depth(&K, row).0,
        join(&K, row, &no_tags(513, 0), &mut whole).0,
        join(&K, &no_tags(513, 0), row, &mut whole).0,
    ];
    assert!(answers == [0; 3] || answers == [15; 3], "{answers:?}");
    answers[0] == 0
}

#[test]
fn counts_of_lent_rows() {
    for tags in 0..=16 {
        let good = summary(&vec![0; tags]);
        for place in 0..32 {
            for count in 1..=3 {
                let mut row = good;
                row[COUNTS] = count << (2 * place);
                let told = place <= tags && count <= 2;
                assert_eq!(is_summary(&row), told, "{tags} {place} {count}");
            }
        }
    }
    let mut all = summary(&[0; 16]);
    all[COUNTS] = (0..17).map(|i| 2 << (2 * i)).sum();
    assert!(is_summary(&all));
    all[COUNTS] += 1 << 34;
    assert!(!is_summary(&all));
}

#[test]
fn counts_that_no_fragment_has() {
    let mut row = [9; ROW];
    // Beside the empty string's relation, and beside none.
    for relation in [513, 0] {
        let many = no_tags(relation, 2);
        assert_eq!(join(&K, &many, &summary(&[1, 33]), &mut row), (0, 0));
        assert_eq!(row[COUNTS], 2);
        assert_eq!(join(&K, &many, &no_tags(relation, 0), &mut row), (0, 0));
        assert_eq!(row, many);
    }
    assert!(is_summary(&[0; ROW]));
    // An element has one outermost element, also around a count that is not true.
    let mut head = summary(&[0]);
    head[COUNTS] = 2 << 2;
    assert_eq!(join(&K, &head, &summary(&[32]), &mut row), (0, 0));
    assert_eq!(row[COUNTS], 1);
}

fn k_schema() -> [[u8; 4]; 4] {
    [[0, 0, 0, 1], [0, 0, 1, 0], [0, 1, 1, 1], [1, 0, 1, 1]]
}

#[test]
fn k_with_other_rules() {
    let rules = vec![[0, 2, 65, 32], [1, 2, 0, 66], [2, 2, 1, 33]];
    assert_eq!(file([2, 3, 2], rules.clone(), &k_schema(), &[1]), K);
    let mut added = rules.clone();
    added.push([2, 0, 255, 255]);
    assert_eq!(line(&file([2, 3, 2], added, &k_schema(), &[1])), (2, 3, 0));
    let mut changed = rules;
    changed[2] = [2, 2, 1, 32];
    assert_eq!(
        line(&file([2, 3, 2], changed, &k_schema(), &[1])),
        (1, 1, 0)
    );
}

#[test]
fn starts_that_are_no_one_element() {
    let element = [0, 2, 0, 32];
    assert_eq!(line(&open(1, vec![element])), (0, 2, 1));
    assert_eq!(line(&open(1, vec![[0, 0, 255, 255]])), (2, 1, 0));
    assert_eq!(line(&open(1, vec![element, [0, 0, 255, 255]])), (2, 1, 0));
    let two = vec![[0, 2, 65, 65], [1, 2, 0, 32]];
    assert_eq!(line(&open(2, two)), (2, 2, 0));
    // One element, and from the second round on two of them.
    assert_eq!(line(&open(1, vec![element, [0, 2, 64, 64]])), (2, 2, 0));
    // The same inside an element.
    let inside = vec![[0, 2, 0, 65], [1, 2, 66, 32], [2, 2, 0, 32], [2, 2, 66, 66]];
    assert_eq!(line(&open(3, inside)).0, 0);
}

#[test]
fn images_that_differ_in_counts_alone() {
    // Nothing, an element and two have one relation under this schema, and so have three, which are no new image.
    let choices = [
        vec![[3, 0, 255, 255]],
        vec![[3, 2, 0, 32]],
        vec![[3, 2, 68, 68], [4, 2, 0, 32]],
    ];
    let around = vec![[0, 2, 65, 66], [1, 2, 0, 67], [2, 1, 32, 255]];
    // The page and the end have one image each, the choice and what begins with it one for each count, and the third choice's part one.
    for (count, images) in [(1, 4), (2, 6), (3, 9)] {
        let rules = [around.clone(), choices[..count].concat()].concat();
        let (answer, _, found) = line(&open(5, rules));
        assert_eq!((answer, found), (0, images), "{count} choices");
    }
    let mut more = [around, choices.concat()].concat();
    more.push([3, 2, 67, 68]);
    assert_eq!(line(&open(5, more)).2, 9);
}

#[test]
fn start_derives_nothing() {
    assert_eq!(
        line(&file([2, 3, 2], vec![[0, 2, 64, 32]], &[], &[])),
        (6, 0, 0)
    );
    assert_eq!(line(&file([2, 3, 2], vec![], &[], &[])), (6, 0, 0));
}

/// `steps` nonterminals that double the start tag, as many the end tag, and the start is both in a row.
fn doubling(steps: u8) -> Vec<u8> {
    let mut rules = vec![[0, 2, 65, 65 + steps]];
    for (first, tag) in [(1, 0), (1 + steps, 32)] {
        for i in 0..steps {
            let next = 65 + first + i;
            rules.push(match i + 1 == steps {
                true => [first + i, 1, tag, 255],
                false => [first + i, 2, next, next],
            });
        }
    }
    file([1, 2 * steps + 1, 1], rules, &[[0, 0, 0, 0]], &[0])
}

#[test]
fn doublings() {
    assert_eq!(line(&doubling(5)), (0, 7, 11));
    assert_eq!(line(&doubling(6)), (3, 6, 0));
}

/// A chain of 64 nonterminals that ends in one of four empty elements, or also in nothing.
fn chain(nothing: bool) -> Vec<u8> {
    // An empty element is two tags, so the last nonterminal gives it itself.
    let mut rules: Vec<[u8; 4]> = (0..63).map(|n| [n, 1, 65 + n, 255]).collect();
    rules.extend((0..4).map(|a| [63, 2, a, 32 + a]));
    if nothing {
        rules.push([63, 0, 255, 255]);
    }
    let schema: Vec<[u8; 4]> = (0..4).map(|i| [0, i, 0, i + 1]).collect();
    file([4, 64, 5], rules, &schema, &[0, 1, 2, 3, 4])
}

#[test]
fn chains() {
    let mut table = vec![7; TABLE];
    assert_eq!(check(&chain(false), &mut table, 65), (0, 65, 256));
    assert!(table[TABLE - ROW] != 0);
    assert_eq!(line(&chain(false)), (5, 64, 0));
    assert_eq!(line(&chain(true)), (4, 52, 0));
}

#[test]
fn order_of_refusals() {
    let mut table = vec![7; TABLE];
    assert_eq!(check(&[], &mut table[1..], 0), (9, 0, 0));
    assert_eq!(check(&[], &mut table, 0), (8, 0, 0));
    assert_eq!(check(&[], &mut table, 258), (8, 0, 0));
    assert_eq!(check(&[], &mut table, 257), (7, 0, 0));
    assert_eq!(
        check(&file([1, 1, 1], vec![], &[], &[]), &mut table, 1),
        (6, 0, 0)
    );
    assert!(table.iter().all(|&entry| entry == 7));
}

#[test]
fn longest_file() {
    let tags: Vec<u8> = (0..32).chain(32..64).collect();
    let rules = (0..64u8).flat_map(|n| (0..4).map(move |i| (n, i)));
    let rules: Vec<[u8; 4]> = rules.map(|(n, i)| [n, 1, tags[i], 255]).collect();
    let schema: Vec<[u8; 4]> = (0..8u8)
        .flat_map(|x| (0..16).map(move |a| [x, a, 0, 0]))
        .collect();
    let mut longest = file([32, 64, 8], rules, &schema, &[0, 1, 2, 3, 4, 5, 6, 7]);
    assert_eq!(longest.len(), 1560);
    assert_eq!(line(&longest), (2, 1, 0));
    longest.push(0);
    assert_eq!(line(&longest), (7, 0, 0));
}
