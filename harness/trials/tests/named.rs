//! The cases of the rules (sections 7 and 11), given to the library itself.

use plain::{ROW, TABLE};
use trials::gen::named;
use trials::library::{check, fragment, join, net_depth, page};

fn k() -> Vec<u8> {
    named::k().bytes()
}

fn summary(bytes: &[u8]) -> [u64; ROW] {
    let mut row = [9; ROW];
    assert_eq!(fragment(&k(), bytes, &mut row), (0, 0));
    row
}

#[test]
fn lines() {
    for named in named::all() {
        let file = named.draft.bytes();
        let mut table = vec![7; TABLE];
        let line = check(&file, &mut table, named.budget);
        assert_eq!(line, named.line, "{}", named.name);
        let line = plain::check(&file, &mut table, named.budget);
        assert_eq!(line, named.line, "{}, independent", named.name);
    }
}

#[test]
fn file_k_and_its_rows() {
    let bytes = [
        2, 3, 2, 0, 16, 0, 3, 0, 28, 0, 4, 0, 44, 0, 1, 0, 0, 2, 65, 32, 1, 2, 0, 66, 2, 2, 1, 33,
        0, 0, 0, 1, 0, 0, 1, 0, 0, 1, 1, 1, 1, 0, 1, 1, 1,
    ];
    assert_eq!(k(), bytes);
    let mut table = vec![7; TABLE + 1];
    assert_eq!(check(&bytes, &mut table, 64), (0, 4, 3));
    let row = |head, relations: &[u64], counts| {
        let mut row = [0; ROW];
        row[0] = head;
        row[3..3 + relations.len()].copy_from_slice(relations);
        row[ROW - 1] = counts;
        row
    };
    let rows = [row(0, &[2], 1), row(2, &[2], 1), row(65_537, &[513, 2], 4)];
    assert_eq!(table[..3 * ROW], rows.concat());
    assert!(table[3 * ROW..TABLE].iter().all(|&entry| entry == 0));
    assert_eq!(table[TABLE], 7);
}

#[test]
fn pages() {
    let cases: [(&[u8], (u32, u64)); 11] = [
        (&[1, 33], (0, 0)),
        (&[], (14, 0)),
        (&[0, 1, 33, 32], (0, 0)),
        (&[0, 32, 1, 33], (14, 0)),
        (&[1, 33, 1, 33], (14, 0)),
        (&[0, 33], (11, 1)),
        (&[0], (13, 0)),
        (&[32], (13, 0)),
        (&[2], (10, 0)),
        (&[0; 17], (12, 16)),
        (&[32, 0, 33], (11, 2)),
    ];
    for (bytes, reply) in cases {
        assert_eq!(page(&k(), bytes), reply, "{bytes:?}");
    }
    let deep = [vec![0; 15], vec![1, 33], vec![32; 15]].concat();
    assert_eq!(page(&k(), &deep), (0, 0));
    let whole = [vec![0; 20], vec![32; 20]].concat();
    assert_eq!(page(&k(), &whole), (12, 16));
}

#[test]
fn one_outermost_element() {
    // The schema of the doubling takes any elements, also none.
    let open = named::doubling(1).bytes();
    for elements in 0..5 {
        let told = if elements == 1 { (0, 0) } else { (14, 0) };
        assert_eq!(page(&open, &[0, 32].repeat(elements)), told);
        let inside = [vec![0], [0, 32].repeat(elements), vec![32]].concat();
        assert_eq!(page(&open, &inside), (0, 0));
    }
}

#[test]
fn fragments_and_joins() {
    let joined = |left: &[u8], right: &[u8]| {
        let mut row = [9; ROW];
        (join(&k(), &summary(left), &summary(right), &mut row), row)
    };
    let single = |bytes: &[u8]| (summary(bytes)[3], summary(bytes)[ROW - 1]);
    assert_eq!(single(&[]), (513, 0));
    assert_eq!(single(&[1, 33]), (2, 1));
    assert_eq!(single(&[0, 32, 1, 33]), (2, 2));
    let both = summary(&[32, 0]);
    assert_eq!(both[..7], [65_792, 0, 0, 513, 513, 513, 0]);
    assert_eq!(net_depth(&k(), &both), (0, 0, 0));
    assert_eq!(joined(&[0, 1], &[33, 32]), ((0, 0), summary(&[1, 33])));
    assert_eq!(joined(&[0], &[33]), ((11, 0), [0; ROW]));
    assert_eq!(joined(&[0; 9], &[0; 7]), ((0, 0), summary(&[0; 16])));
    assert_eq!(joined(&[0; 9], &[0; 8]), ((12, 0), [0; ROW]));
    let right = [vec![0; 10], vec![32; 20]].concat();
    assert_eq!(joined(&[0; 10], &right).1[0], 0);
}
