// From Rust: rustc -L . -l orient left.rs, with the emitted C in liborient.a.
extern "C" {
    fn ln_orient(x: *const i64, v: *const i64) -> i32;
}

/// Returns -1, 0 or 1. The indices differ, and the values are in the ranges of the source.
fn orient(x: &[i64; 3], v: &[i64; 6]) -> i32 {
    // The function reads three indices and six values, and writes nothing.
    unsafe { ln_orient(x.as_ptr(), v.as_ptr()) }
}

fn main() {
    println!("{} {}", orient(&[1, 2, 3], &[0, 0, 1, 0, 0, 1]), orient(&[1, 2, 3], &[0, 0, 1, 1, 2, 2]));
}
