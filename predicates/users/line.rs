// The same from Rust, over the crate.
use lnc_predicates::plane::{orient2, plain, Point2};

fn main() {
    let site = |index, x, y| Point2::new(index, [x, y]);
    let (p, q, r) = (site(1, 0, 0).unwrap(), site(2, 1, 1).unwrap(), site(3, 2, 2).unwrap());
    let far = site(4, Point2::RANGES[0].1 + 1, 0);
    println!("{} {} {}", orient2(&p, &q, &r), plain::orient2(&p, &q, &r), i32::from(far.is_some()));
}
