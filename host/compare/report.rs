//! Fills the tables, measures every row, and prints Markdown.
use crate::alike;
use crate::counter::{Caller, Counts};
use crate::driver::{rows, ABOUT, TITLE};
use crate::ours::Ours;
use crate::picture::{self, Panel};
use crate::published::Published;
use crate::rows::{fill, Plan, Row, Side};
use crate::timer::Timer;

/// The sides with the row that is measured: the call that tests the table, the owner's call, which does not, and the Rust's.
pub struct Sides<'a, A, B, C> {
    pub tested: (&'a mut A, &'a Row<A>),
    pub owner: (&'a mut B, &'a Row<B>),
    pub published: (&'a mut C, &'a Row<C>),
}

/// What a call of each costs.
#[derive(Clone, Copy)]
pub struct Costs {
    pub tested: f64,
    pub owner: f64,
    pub published: f64,
}

/// What a call of each side costs, without what a call costs that does nothing.
pub trait Meter {
    /// How often everything is measured: of each cell the pass counts in which the machine disturbed it least.
    const PASSES: usize;
    fn costs(&mut self, sides: &mut Sides<impl Side, impl Side, impl Side>, plan: Plan) -> Costs;
}

const SIZES: [usize; 4] = [16, 64, 256, 1024];

/// How full the tables are, in halves, and whether their scenes have the most field bytes: such a table is saved and loaded only.
struct Filling {
    title: &'static str,
    halves: usize,
    long: bool,
}

impl Filling {
    fn rows<S: Side>(&self) -> Vec<Row<S>> {
        rows().into_iter().filter(|row| row.image || !self.long).collect()
    }
}

const FILLINGS: [Filling; 4] = [
    Filling { title: "Full tables", halves: 2, long: false },
    Filling { title: "Half full tables", halves: 1, long: false },
    Filling { title: "Empty tables", halves: 0, long: false },
    Filling { title: "Full tables of scenes with 128 field bytes", halves: 2, long: true },
];

struct Cell {
    costs: Costs,
    status: u8,
}

impl Cell {
    fn sum(&self) -> f64 {
        self.costs.tested + self.costs.owner + self.costs.published
    }
}

/// Makes a row's call, which leaves the table as it was: what it answers.
fn tried<S: Side>(side: &mut S, row: &Row<S>, plan: Plan) -> u8 {
    let status = (row.call)(side, plan);
    side.restore();
    status
}

fn measure<const N: usize>(filling: &Filling, meter: &mut impl Meter) -> Vec<Cell> {
    let (mut tested, mut owner, mut published) = (Ours::<true>::new(N), Ours::<false>::new(N), Published::<N>::new());
    let entries = N * filling.halves / 2;
    fill(&mut tested, entries, filling.long);
    fill(&mut owner, entries, filling.long);
    fill(&mut published, entries, filling.long);
    assert!(tested.image() == published.image() && owner.image() == published.image(), "the sides save different images");
    let plan = Plan { entries };
    let mut cells = Vec::new();
    for ((a, b), c) in filling.rows().iter().zip(&filling.rows()).zip(&filling.rows()) {
        let status = tried(&mut published, c, plan);
        assert_eq!(
            [tried(&mut tested, a, plan), tried(&mut owner, b, plan)],
            [status; 2],
            "{}: the sides answer differently",
            a.name
        );
        let mut sides = Sides { tested: (&mut tested, a), owner: (&mut owner, b), published: (&mut published, c) };
        cells.push(Cell { costs: meter.costs(&mut sides, plan), status });
    }
    cells
}

/// The cells of a size.
fn sized(size: usize, filling: &Filling, meter: &mut impl Meter) -> Vec<Cell> {
    match size {
        16 => measure::<16>(filling, meter),
        64 => measure::<64>(filling, meter),
        256 => measure::<256>(filling, meter),
        _ => measure::<1024>(filling, meter),
    }
}

fn print(filling: &Filling, columns: &[Vec<Cell>]) {
    if columns[0].is_empty() {
        return;
    }
    println!("\n### {}\n", filling.title);
    println!("| call | N 16: tested, owner's, Rust; ratios | N 64 | N 256 | N 1,024 | growth 16 to 1,024: tested, owner's, Rust |");
    println!("|---|---|---|---|---|---|");
    for (i, row) in filling.rows::<Ours<true>>().iter().enumerate() {
        let cells: Vec<&Cell> = columns.iter().map(|column| &column[i]).collect();
        print!("| {}", row.name);
        if cells[0].status != 0 {
            print!(" (0x{:02X})", cells[0].status);
        }
        for Cell { costs: Costs { tested, owner, published }, .. } in &cells {
            let rust = published.max(0.1);
            print!(" | {tested:.0}, {owner:.0}, {published:.0}; {:.2}, {:.2}", tested / rust, owner / rust);
        }
        let growth = |get: fn(&Costs) -> f64| get(&cells[3].costs) / get(&cells[0].costs).max(0.1);
        println!(" | × {:.1}, × {:.1}, × {:.1} |", growth(|c| c.tested), growth(|c| c.owner), growth(|c| c.published));
    }
}

fn machine() -> String {
    let info = std::fs::read_to_string("/proc/cpuinfo").unwrap_or_default();
    let line = info.lines().find(|line| line.starts_with("model name"));
    line.and_then(|line| line.split(": ").nth(1)).unwrap_or("an unknown processor").into()
}

/// Every cell: by filling, size and row.
fn pass(meter: &mut impl Meter) -> Vec<Vec<Vec<Cell>>> {
    let sizes = |filling, meter: &mut _| SIZES.iter().map(|&size| sized(size, filling, meter)).collect();
    FILLINGS.iter().map(|filling| sizes(filling, meter)).collect()
}

/// A table for each filling. The cells.
fn tables<M: Meter>(meter: &mut M) -> Vec<Vec<Vec<Cell>>> {
    let mut best = pass(meter);
    for _ in 1..M::PASSES {
        let cells = best.iter_mut().flatten().flatten();
        for (cell, other) in cells.zip(pass(meter).into_iter().flatten().flatten()) {
            if other.sum() < cell.sum() {
                *cell = other;
            }
        }
    }
    for (columns, filling) in best.iter().zip(&FILLINGS) {
        print(filling, columns);
    }
    best
}

/// Saves and loads are not in the picture: they would need another scale.
fn panels(columns: &[Vec<Cell>]) -> Vec<Panel> {
    let costs = |i: usize, cost: fn(&Costs) -> f64| columns.iter().map(|column| cost(&column[i].costs)).collect();
    let rows = rows::<Ours<true>>();
    let panel = |(i, row): (usize, &Row<_>)| Panel {
        name: row.name,
        tested: costs(i, |c| c.tested),
        owner: costs(i, |c| c.owner),
        published: costs(i, |c| c.published),
    };
    rows.iter().enumerate().filter(|(_, row)| !row.image).map(panel).collect()
}

/// `alike SEED CALLS`: calls at random, which all sides must answer alike. `times PICTURE`: nanoseconds. `calls`: the calls alone, for
/// callgrind. `counts FOLDER`: what callgrind counted.
pub fn main() {
    let arguments: Vec<String> = std::env::args().skip(1).collect();
    match arguments.iter().map(String::as_str).collect::<Vec<_>>()[..] {
        ["times", picture] => {
            let mut timer = Timer::new();
            println!("# {TITLE}\n");
            println!("Measured on {}; a time stamp tick is {:.3} ns.", machine(), timer.tick);
            println!("{ABOUT}\n\n## Nanoseconds of a call");
            let cells = tables(&mut timer);
            std::fs::write(picture, picture::svg(&panels(&cells[0]), &SIZES)).unwrap();
        }
        ["alike", seed, calls] => alike::run(seed.parse().unwrap(), calls.parse().unwrap()),
        ["calls"] => drop(tables(&mut Caller)),
        ["counts", folder] => {
            println!("\n## Instructions of a call");
            tables(&mut Counts { folder: folder.into(), read: 0 });
        }
        _ => panic!("usage: compare alike SEED CALLS | times PICTURE | calls | counts FOLDER"),
    }
}
