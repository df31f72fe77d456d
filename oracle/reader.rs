// The oracle's reader and answers as a C library for the fuzzer, which watches this code for new paths.
#![allow(dead_code, unused_imports)]
mod answers;

unsafe fn bytes<'a>(text: *const u8, length: usize) -> &'a [u8] {
    if length == 0 { &[] } else { unsafe { std::slice::from_raw_parts(text, length) } }
}

/// The line that departs, or -1 where none does.
#[unsafe(no_mangle)]
pub unsafe extern "C" fn oracle_line(text: *const u8, length: usize) -> i64 {
    answers::read(unsafe { bytes(text, length) }).map_or_else(|line| line as i64, |_| -1)
}

/// The evaluations that a request asks for; 0 where a line departs.
#[unsafe(no_mangle)]
pub unsafe extern "C" fn oracle_limit(text: *const u8, length: usize) -> u64 {
    answers::read(unsafe { bytes(text, length) }).map_or(0, |r| r.max_quadrature_evaluations as u64)
}

/// The whole answer, into a buffer that holds any; its length.
#[unsafe(no_mangle)]
pub unsafe extern "C" fn oracle_answer(text: *const u8, length: usize, out: *mut u8) -> usize {
    let answer = answers::fit(unsafe { bytes(text, length) }, answers::After::Nothing).unwrap_or_else(|e| e);
    let n = answer.len().min(4096);
    unsafe { std::ptr::copy_nonoverlapping(answer.as_ptr(), out, n) };
    n
}
