// The possible starts of telescopes by slice, and their bests at prices, in blocks of four slices: what could start at each slice of a
// block, for the same worth, stands once for all four.

use crate::snapshot::{Run, Snapshot};

#[derive(Clone, Copy, PartialEq)]
pub struct Start {
    pub worth: u32,
    /// The place of its request.
    pub place: u16,
    /// The row of the slice after its last.
    pub after: u16,
}

impl Start {
    fn later(self, slices: u16) -> Start {
        Start {
            after: self.after + slices,
            ..self
        }
    }

    fn weight(self, prices: &[i64]) -> i64 {
        i64::from(self.worth) - prices[usize::from(self.place)]
    }
}

/// Rows of starts one after another.
#[derive(Default)]
pub struct List {
    starts: Vec<Start>,
    ends: Vec<u32>,
}

impl List {
    pub fn row(&self, row: usize) -> &[Start] {
        let from = if row == 0 { 0 } else { self.ends[row - 1] };
        &self.starts[from as usize..self.ends[row] as usize]
    }

    fn close_row(&mut self) {
        self.ends.push(self.starts.len() as u32);
    }

    fn len(&self) -> usize {
        self.ends.len()
    }
}

/// The rows of a telescope.
pub struct Rows {
    pub all: List,
    /// For each block the starts that stand for four.
    wholes: List,
    /// For each slice the others.
    singles: List,
}

fn list(of: &Snapshot, telescope: u16, runs: &[Run]) -> List {
    let mut rows = vec![Vec::new(); of.slices as usize];
    for run in runs.iter().filter(|run| run.telescope == telescope) {
        let size = of.size(&of.requests[run.place]);
        for slice in run.first..run.end {
            let row = slice - of.first;
            rows[row as usize].push(Start {
                worth: of.worth(run.place, slice) as u32,
                place: run.place as u16,
                after: (row + size) as u16,
            });
        }
    }
    let mut list = List::default();
    for row in rows {
        list.starts.extend(row);
        list.close_row();
    }
    list
}

/// Whether the row, which is ordered by place, has this start.
fn has(row: &[Start], start: Start) -> bool {
    row.binary_search_by_key(&start.place, |other| other.place)
        .is_ok_and(|place| row[place] == start)
}

impl Rows {
    pub fn new(of: &Snapshot, telescope: u16, runs: &[Run]) -> Rows {
        let all = list(of, telescope, runs);
        let mut wholes = List::default();
        let mut singles = List::default();
        for block in 0..all.len() / 4 {
            let first = 4 * block;
            let is_whole = |start: &&Start| {
                usize::from(start.after) >= first + 4
                    && (1..4).all(|slice| has(all.row(first + slice), start.later(slice as u16)))
            };
            wholes
                .starts
                .extend(all.row(first).iter().filter(is_whole).copied());
            wholes.close_row();
        }
        for row in 0..all.len() {
            let whole = if row / 4 < wholes.len() {
                wholes.row(row / 4)
            } else {
                &[]
            };
            let slice = (row % 4) as u16;
            let is_single = |start: &&Start| {
                start.after < slice
                    || !has(
                        whole,
                        Start {
                            after: start.after - slice,
                            ..**start
                        },
                    )
            };
            singles
                .starts
                .extend(all.row(row).iter().filter(is_single).copied());
            singles.close_row();
        }
        Rows {
            all,
            wholes,
            singles,
        }
    }

    /// Writes the greatest surplus from each slice on.
    pub fn fill(&self, prices: &[i64], table: &mut [i64]) -> i64 {
        let slices = self.all.len();
        let blocks = self.wholes.len();
        table[slices] = 0;
        for row in (4 * blocks..slices).rev() {
            self.fill_row(row, 0, prices, table);
        }
        for block in (0..blocks).rev() {
            let best = self.block_best(block, prices, table);
            for slice in (0..4).rev() {
                self.fill_row(4 * block + slice, best[slice], prices, table);
            }
        }
        table[0]
    }

    fn fill_row(&self, row: usize, least: i64, prices: &[i64], table: &mut [i64]) {
        let mut best = least.max(table[row + 1]);
        for start in self.singles.row(row) {
            best = best.max(start.weight(prices) + table[usize::from(start.after)]);
        }
        table[row] = best;
    }

    fn block_best(&self, block: usize, prices: &[i64], table: &[i64]) -> [i64; 4] {
        let [mut first, mut second, mut third, mut fourth] = [0; 4];
        for start in self.wholes.row(block) {
            let weight = start.weight(prices);
            let after = usize::from(start.after);
            let entries: &[i64; 4] = table[after..after + 4].try_into().unwrap();
            first = first.max(weight + entries[0]);
            second = second.max(weight + entries[1]);
            third = third.max(weight + entries[2]);
            fourth = fourth.max(weight + entries[3]);
        }
        [first, second, third, fourth]
    }

    /// Visits what the telescope starts to reach the bests of the table: place and row.
    pub fn walk(&self, prices: &[i64], table: &[i64], mut visit: impl FnMut(u16, usize)) {
        let slices = self.all.len();
        let mut row = 0;
        while row < slices {
            if table[row] == table[row + 1] {
                row += 1;
                continue;
            }
            let reaches = |start: &&Start| {
                start.weight(prices) + table[usize::from(start.after)] == table[row]
            };
            let start = self.all.row(row).iter().find(reaches).unwrap();
            visit(start.place, row);
            row = usize::from(start.after);
        }
    }
}
