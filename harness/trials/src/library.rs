//! The library's calls with replies as plain numbers, as the independent implementation gives them.

use ujthanor::calls;

pub fn check(file: &[u8], table: &mut [u64], budget: usize) -> (u32, u64, u64) {
    let reply = calls::check(file, table, budget);
    (reply.answer, reply.number, reply.images)
}

pub fn page(file: &[u8], bytes: &[u8]) -> (u32, u64) {
    let reply = calls::page(file, bytes);
    (reply.answer, reply.number)
}

pub fn fragment(file: &[u8], bytes: &[u8], row: &mut [u64]) -> (u32, u64) {
    let reply = calls::fragment(file, bytes, row);
    (reply.answer, reply.number)
}

pub fn join(file: &[u8], left: &[u64], right: &[u64], row: &mut [u64]) -> (u32, u64) {
    let reply = calls::join(file, left, right, row);
    (reply.answer, reply.number)
}

pub fn net_depth(file: &[u8], row: &[u64]) -> (u32, u64, i32) {
    let reply = calls::net_depth(file, row);
    (reply.answer, reply.number, reply.depth)
}

pub fn split(file: &[u8], out: &mut [u8]) -> (u32, u64) {
    let reply = calls::split(file, out);
    (reply.answer, reply.number)
}
