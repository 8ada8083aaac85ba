// The bests of a telescope, until each slice and from each slice on.

use super::starts_of;
use crate::parts::Snapshot;

pub struct Chart {
    pub until: Vec<i64>,
    pub after: Vec<i64>,
}

pub fn chart_of(snapshot: &Snapshot, telescope: usize, prices: &[i64]) -> Chart {
    let rows = starts_of(snapshot, telescope, prices);
    let mut until = vec![0i64; rows.len() + 1];
    for (slice, row) in rows.iter().enumerate() {
        until[slice + 1] = until[slice + 1].max(until[slice]);
        for start in row {
            until[start.after] = until[start.after].max(until[slice] + start.weight);
        }
    }
    let mut after = vec![0i64; rows.len() + 1];
    for slice in (0..rows.len()).rev() {
        let mut best = after[slice + 1];
        for start in &rows[slice] {
            best = best.max(start.weight + after[start.after]);
        }
        after[slice] = best;
    }
    Chart { until, after }
}

/// How many possible starts there are.
pub fn count_of(snapshot: &Snapshot, prices: &[i64]) -> usize {
    (0..snapshot.telescopes.len())
        .flat_map(|telescope| starts_of(snapshot, telescope, prices))
        .map(|row| row.len())
        .sum()
}
