// Spans and sets of seconds or slices as the crates hold them, in plain Rust: what the baselines of several benchmarks
// share. Each uses a part of it.
#![allow(dead_code)]

/// The whole numbers from `from` to the one before `to`.
#[derive(Clone, Copy)]
pub struct Span {
    pub from: u64,
    pub to: u64,
}

/// A set of whole numbers: spans in order, none empty, no two of them touching.
#[derive(Clone, Default)]
pub struct Spans {
    pub items: Vec<Span>,
}

impl Spans {
    pub fn from_list(list: &[Span]) -> Self {
        let mut sorted = list.to_vec();
        sorted.sort_unstable_by_key(|span| span.from);
        let mut set = Spans::default();
        set.add_all(&sorted);
        set
    }

    pub fn union(&self, other: &Spans) -> Self {
        let (mine, theirs) = (&self.items, &other.items);
        let (mut i, mut j) = (0, 0);
        let mut union = Spans::default();
        while i < mine.len() && j < theirs.len() {
            if mine[i].from <= theirs[j].from {
                union.add(mine[i]);
                i += 1;
            } else {
                union.add(theirs[j]);
                j += 1;
            }
        }
        union.add_all(&mine[i..]);
        union.add_all(&theirs[j..]);
        union
    }

    pub fn meet(&self, other: &Spans) -> Self {
        let (mine, theirs) = (&self.items, &other.items);
        let (mut i, mut j) = (0, 0);
        let mut meet = Spans::default();
        while i < mine.len() && j < theirs.len() {
            meet.add(Span {
                from: mine[i].from.max(theirs[j].from),
                to: mine[i].to.min(theirs[j].to),
            });
            if mine[i].to <= theirs[j].to {
                i += 1;
            } else {
                j += 1;
            }
        }
        meet
    }

    pub fn minus(&self, other: &Spans) -> Self {
        let (mine, theirs) = (&self.items, &other.items);
        let (mut i, mut j) = (0, 0);
        let mut gap_from = 0;
        let mut difference = Spans::default();
        while i < mine.len() {
            let span = mine[i];
            let gap_to = theirs.get(j).map_or(span.to, |hole| hole.from);
            difference.add(Span {
                from: span.from.max(gap_from),
                to: span.to.min(gap_to),
            });
            if span.to <= gap_to {
                i += 1;
            } else {
                gap_from = theirs[j].to;
                j += 1;
            }
        }
        difference
    }

    fn add(&mut self, span: Span) {
        match self.items.last_mut() {
            Some(last) if span.from <= last.to => last.to = last.to.max(span.to),
            _ if span.from < span.to => self.items.push(span),
            _ => {}
        }
    }

    fn add_all(&mut self, spans: &[Span]) {
        self.items.reserve(spans.len());
        for span in spans {
            self.add(*span);
        }
    }
}
