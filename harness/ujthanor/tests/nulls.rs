//! The raw calls with no bytes, no table, no row and no output as a null pointer of length 0: each is answered as if they were empty
//! slices.

mod common;

use common::{open, K, LONG};
use std::ptr::{null, null_mut};
use ujthanor::{raw, BUDGET, ROW, TABLE};

/// What no call here leaves in a number.
const UNSET: u64 = 99;

#[test]
fn checks() {
    let (mut number, mut images) = (UNSET, UNSET);
    let mut table = vec![UNSET; TABLE];
    // SAFETY: null only with length 0, else as slices have it.
    let answers = unsafe {
        let (n, i) = (&mut number, &mut images);
        [
            raw::ujthanor_check(null(), 0, table.as_mut_ptr(), TABLE, BUDGET, n, i),
            raw::ujthanor_check(K.as_ptr(), K.len(), null_mut(), 0, BUDGET, n, i),
            raw::ujthanor_check(null(), 0, null_mut(), 0, 0, n, i),
        ]
    };
    assert_eq!((answers, number, images), ([7, 9, 9], 0, 0));
    assert!(table.iter().all(|&entry| entry == UNSET));
}

fn page(file: &[u8]) -> (u32, u64) {
    let mut number = UNSET;
    // SAFETY: as in `checks`.
    let answer = unsafe { raw::ujthanor_page(file.as_ptr(), file.len(), null(), 0, &mut number) };
    (answer, number)
}

#[test]
fn pages() {
    assert_eq!(page(&K), (14, 0));
    assert_eq!(page(&open(1, &[])), (14, 0));
    let mut number = UNSET;
    // SAFETY: as in `checks`.
    let answers = unsafe {
        let n = &mut number;
        [
            raw::ujthanor_page(null(), 0, K.as_ptr(), K.len(), n),
            raw::ujthanor_page(null(), 0, null(), 0, n),
        ]
    };
    assert_eq!((answers, number), ([7, 7], 0));
}

#[test]
fn fragments() {
    let (mut number, mut row) = (UNSET, [UNSET; ROW]);
    // SAFETY: as in `checks`.
    let answers = unsafe {
        let (n, r) = (&mut number, row.as_mut_ptr());
        [
            raw::ujthanor_fragment(K.as_ptr(), K.len(), null(), 0, null_mut(), 0, n),
            raw::ujthanor_fragment(null(), 0, null(), 0, r, ROW, n),
            raw::ujthanor_fragment(K.as_ptr(), K.len(), null(), 0, r, ROW, n),
        ]
    };
    assert_eq!((answers, number), ([17, 7, 0], 0));
    assert_eq!(row, ujthanor::fragment(&K, &[]).unwrap().0);
}

#[test]
fn joins() {
    let (mut number, mut row) = (UNSET, [UNSET; ROW]);
    let part = ujthanor::fragment(&K, &[0]).unwrap().0;
    let (k, p) = (K.as_ptr(), part.as_ptr());
    // SAFETY: as in `checks`.
    let answers = unsafe {
        let (n, r) = (&mut number, row.as_mut_ptr());
        [
            raw::ujthanor_join(k, K.len(), p, ROW, p, ROW, null_mut(), 0, n),
            raw::ujthanor_join(null(), 0, p, ROW, p, ROW, r, ROW, n),
            raw::ujthanor_join(k, K.len(), null(), 0, p, ROW, r, ROW, n),
            raw::ujthanor_join(k, K.len(), p, ROW, null(), 0, r, ROW, n),
            raw::ujthanor_join(null(), 0, null(), 0, null(), 0, null_mut(), 0, n),
        ]
    };
    assert_eq!((answers, number), ([17, 7, 15, 15, 17], 0));
    assert_eq!(row, [0; ROW]);
}

#[test]
fn net_depths() {
    let (mut number, mut depth) = (UNSET, 9);
    let part = ujthanor::fragment(&K, &[0]).unwrap().0;
    // SAFETY: as in `checks`.
    let answers = unsafe {
        let (n, d) = (&mut number, &mut depth);
        [
            raw::ujthanor_net_depth(K.as_ptr(), K.len(), null(), 0, n, d),
            raw::ujthanor_net_depth(null(), 0, part.as_ptr(), ROW, n, d),
        ]
    };
    assert_eq!((answers, number, depth), ([15, 7], 0, 0));
}

#[test]
fn splits() {
    let (mut number, mut out) = (UNSET, [9; 45]);
    let (long, room) = (LONG.as_ptr(), out.len());
    // SAFETY: as in `checks`.
    let answers = unsafe {
        let (n, o) = (&mut number, out.as_mut_ptr());
        [
            raw::ujthanor_split(null(), 0, o, room, n),
            raw::ujthanor_split(long, LONG.len(), null_mut(), 0, n),
            raw::ujthanor_split(null(), 0, null_mut(), 0, n),
        ]
    };
    assert_eq!((answers, number), ([7, 17, 7], 0));
    assert_eq!(out, [9; 45]);
}
