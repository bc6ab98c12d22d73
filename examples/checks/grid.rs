// What grid.c does, over the Rust crate's grid.
#[allow(dead_code)]
#[path = "../../predicates/rust/src/grid.rs"]
mod grid;
use grid::{Grid, Refused};
use std::io::{read_to_string, stdin};

fn word(refused: Refused) -> &'static str {
    match refused {
        Refused::NotFinite => "finite",
        Refused::Range => "range",
    }
}

fn place<const D: usize>(grid: &Grid<D>, coordinates: [i64; D]) -> String {
    let whole: String = coordinates.iter().map(|c| format!(" {c}")).collect();
    whole + &grid.back(coordinates).iter().map(|c| format!(" {:016x}", c.to_bits())).collect::<String>()
}

fn taken<const D: usize>(words: &mut dyn Iterator<Item = &str>) -> [f64; D] {
    std::array::from_fn(|_| f64::from_bits(u64::from_str_radix(words.next().unwrap(), 16).unwrap()))
}

/// Reads a grid's lines up to the next grid.
fn run<const D: usize>(lines: &[&str], low: i64, high: i64, made: bool) {
    let mut words = lines[1..].iter().flat_map(|line| line.split(' ')).peekable();
    let count = lines[0].split(' ').last().unwrap().parse().unwrap();
    let points: Vec<[f64; D]> = (0..count).map(|_| taken(&mut words)).collect();
    let begun = if made { Grid::new(&points, low, high) } else { Grid::over(points[0], points[1], low, high).map_err(|refused| (refused, 0)) };
    let mut grid = match begun {
        Ok(grid) => grid,
        Err((refused, number)) => return println!("{}{}", word(refused), if made { format!(" {number}") } else { String::new() }),
    };
    let origin: String = grid.origin().iter().map(|c| format!(" {c}")).collect();
    println!("done {}{origin} {} {} {:016x}", grid.power(), grid.equal(), grid.merged(), grid.largest_move().to_bits());
    for (first, coordinates) in grid.first().iter().zip(grid.points()) {
        println!("{first}{}", place(&grid, *coordinates));
    }
    while let Some(kind) = words.next() {
        let line = match kind {
            "add" => grid.add(taken(&mut words)).map(|(own, new)| {
                format!("{} {own}{}", if new { "done" } else { "taken" }, place(&grid, grid.points()[own]))
            }),
            "snap" => grid.snap(taken(&mut words)).map(|c| format!("done{}", place(&grid, c))),
            _ => grid.weight(taken::<1>(&mut words)[0], 0, 1 << 60).map(|w| format!("done {w}")),
        };
        println!("{}", line.unwrap_or_else(|refused| word(refused).into()));
    }
}

fn main() {
    let text = read_to_string(stdin()).unwrap();
    let lines: Vec<&str> = text.lines().collect();
    let heads: Vec<usize> = (0..lines.len()).filter(|&i| lines[i].starts_with("make") || lines[i].starts_with("over")).collect();
    for (k, &head) in heads.iter().enumerate() {
        let words: Vec<&str> = lines[head].split(' ').collect();
        let (low, high) = (words[2].parse().unwrap(), words[3].parse().unwrap());
        let own = &lines[head..heads.get(k + 1).copied().unwrap_or(lines.len())];
        match words[1] {
            "1" => run::<1>(own, low, high, words[0] == "make"),
            "2" => run::<2>(own, low, high, words[0] == "make"),
            _ => run::<3>(own, low, high, words[0] == "make"),
        }
    }
}
