// Where a request may start: a row for each telescope, with a flag for each slice.

use super::stretch_in_sight;
use crate::parts::{Request, Snapshot, FIRST, LEN, SLICES};

pub fn openings_of(snapshot: &Snapshot, request: &Request) -> Vec<Vec<bool>> {
    let mut views = Vec::new();
    (0..snapshot.telescopes.len())
        .map(|telescope| row_of(snapshot, request, telescope, &mut views))
        .collect()
}

fn row_of(
    snapshot: &Snapshot,
    request: &Request,
    telescope: usize,
    views: &mut Vec<usize>,
) -> Vec<bool> {
    if !request.telescopes.contains(&(telescope as u16)) {
        return Vec::new();
    }
    let part = &snapshot.telescopes[telescope];
    views.clear();
    let all = request.targets.iter().all(|&target| {
        let view = snapshot.find_sky(target, part.site);
        views.extend(view);
        view.is_some()
    });
    if !all {
        return Vec::new();
    }
    let size = u64::from(request.seconds).div_ceil(LEN);
    let stop = (FIRST + SLICES as u64 + 1).saturating_sub(size);
    let mut flags = Vec::new();
    let mut slice = FIRST;
    while slice < stop {
        let stretch = stretch_in_sight(snapshot, part, request, views, slice);
        slice = stretch.end.min(stop);
        flags.resize((slice - FIRST) as usize, stretch.fits);
    }
    flags
}
