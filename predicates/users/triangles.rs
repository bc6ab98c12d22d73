//! A Delaunay triangulation: standard input has pairs of doubles, each line of standard output the numbers of a triangle's corners, from 0 and
//! counterclockwise. Of points at one place the first counts. Flat triangles, which are all at the hull, are left out.
use lnc_predicates::grid::Grid;
use lnc_predicates::plane::{incircle, orient2, plain, Point2};
use std::collections::HashMap;
const OUTSIDE: usize = usize::MAX; // the third corner of the triangles beyond the edges of the hull
struct Mesh {
    site: Vec<Point2>,
    across: HashMap<(usize, usize), usize>, // of each edge, from a to b, the third corner of the triangle at its left
}
impl Mesh {
    fn add(&mut self, a: usize, b: usize, c: usize) { self.across.extend([((a, b), c), ((b, c), a), ((c, a), b)]); }
    fn is_left(&self, a: usize, b: usize, p: usize) -> bool { orient2(&self.site[a], &self.site[b], &self.site[p]) > 0 }
    /// In the circle of a triangle; of one beyond the hull, beyond its edge.
    fn is_inside(&self, corners: [usize; 3], p: usize) -> bool {
        let [a, b, c] = corners;
        match corners.iter().position(|&corner| corner == OUTSIDE) {
            Some(k) => self.is_left([b, c, a][k], [c, a, b][k], p),
            None => incircle(&self.site[a], &self.site[b], &self.site[c], &self.site[p]) > 0,
        }
    }
    /// Removes the triangles that have p in their circles, and joins p to the edges of the hole, one of which it returns.
    fn insert(&mut self, p: usize, mut near: (usize, usize)) -> (usize, usize) {
        let ((mut a, mut b), mut sides) = (near, 0);
        // a triangle with p in it, or one beyond the hull from which p is seen: from triangle to triangle
        while sides < 3 && ![a, b, self.across[&(a, b)]].contains(&OUTSIDE) {
            (a, b, sides) = if self.is_left(a, b, p) { (a, b, sides) } else { (b, a, 0) };
            (a, b, sides) = (b, self.across[&(a, b)], sides + 1);
        }
        let mut hole = vec![(a, b), (b, self.across[&(a, b)]), (self.across[&(a, b)], a)];
        while let Some((a, b)) = hole.pop() {
            let c = self.across[&(b, a)];
            if self.is_inside([b, a, c], p) {
                for edge in [(a, b), (b, a)] { self.across.remove(&edge); }
                hole.extend([(a, c), (c, b)]);
            } else {
                self.add(a, b, p);
                near = if a == OUTSIDE || b == OUTSIDE { near } else { (a, b) };
            }
        }
        near
    }
}
fn main() {
    let numbers: Vec<f64> = std::io::read_to_string(std::io::stdin()).unwrap().split_whitespace().map(|word| word.parse().unwrap()).collect();
    let points: Vec<[f64; 2]> = numbers.chunks_exact(2).map(|pair| [pair[0], pair[1]]).collect();
    let grid = Grid::new(&points, Point2::RANGES[0].0, Point2::RANGES[0].1).expect("points that are finite");
    let site = grid.points().iter().zip(0..).map(|(c, k)| Point2::new(k, *c).unwrap()).collect();
    let mut mesh = Mesh { site, across: HashMap::new() };
    let order: Vec<usize> = (0..points.len()).filter(|&k| grid.first()[k] == k).collect();
    let [a, b, c, others @ ..] = &order[..] else { return };
    let (a, b) = if mesh.is_left(*a, *b, *c) { (*a, *b) } else { (*b, *a) };
    for [a, b, c] in [[a, b, *c], [b, a, OUTSIDE], [*c, b, OUTSIDE], [a, *c, OUTSIDE]] { mesh.add(a, b, c) }
    others.iter().fold((a, b), |near, &k| mesh.insert(k, near));
    for (&(a, b), &c) in &mesh.across {
        if a < b && a < c && b != OUTSIDE && c != OUTSIDE && plain::orient2(&mesh.site[a], &mesh.site[b], &mesh.site[c]) != 0 {
            println!("{a} {b} {c}");
        }
    }
}
