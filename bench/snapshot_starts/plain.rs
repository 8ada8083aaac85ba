// The possible starts of a snapshot as in the crate snapshot_starts, in plain Rust, timed as bench/starts times that crate.

#[path = "../plain/sky.rs"]
mod sky;
#[path = "../plain/spans.rs"]
mod spans;

use sky::{Sky, Telescope};
use spans::{Span, Spans};
use std::hint::black_box;
use std::thread;
use std::time::Instant;

const TELESCOPES: u16 = 32;
const REQUESTS: u16 = 1_024;
const NIGHTS: u64 = 8;
const ROUNDS: u32 = 5;
const TELESCOPES_AT_A_SITE: u16 = 8;
const MOST_STARTS: u64 = 1_048_576;

struct Request {
    request: u32,
    seconds: u32,
    windows: Vec<Span>,
    telescopes: Vec<u16>,
    targets: Vec<u16>,
}

struct Snapshot {
    len: u32,
    first: u32,
    slices: u32,
    telescopes: Vec<Telescope>,
    skies: Vec<Sky>,
    requests: Vec<Request>,
}

#[derive(Clone, Copy)]
struct Pair {
    request: u32,
    telescope: u16,
}

struct PairSlices {
    pair: Pair,
    slices: Spans,
}

#[derive(Clone, Copy)]
struct Run {
    request: u32,
    telescope: u16,
    first: u32,
    count: u32,
}

struct Starts {
    runs: Vec<Run>,
    sums: Vec<u32>,
}

fn slices_in(len: u32, seconds: u32, span: Span) -> Span {
    Span {
        from: span.from.div_ceil(u64::from(len)),
        to: match span.to.checked_sub(u64::from(seconds)) {
            Some(latest) => latest / u64::from(len) + 1,
            None => 0,
        },
    }
}

fn slices_in_any(len: u32, seconds: u32, spans: &[Span]) -> Spans {
    let slices: Vec<Span> = spans
        .iter()
        .map(|span| slices_in(len, seconds, *span))
        .collect();
    Spans::from_list(&slices)
}

fn sky_of(skies: &[Sky], target: u16, site: u16) -> Option<&Sky> {
    let place = skies.partition_point(|sky| (sky.target, sky.site) < (target, site));
    skies
        .get(place)
        .filter(|sky| sky.target == target && sky.site == site)
}

impl Snapshot {
    fn timely_slices(&self, request: &Request) -> Spans {
        let size = u64::from(request.seconds.div_ceil(self.len));
        let past = u64::from(self.first) + u64::from(self.slices) + 1;
        let within = Spans::from_list(&[Span {
            from: u64::from(self.first),
            to: past.saturating_sub(size),
        }]);
        within.meet(&slices_in_any(self.len, request.seconds, &request.windows))
    }

    fn start_slices(&self, request: &Request, number: u16) -> Spans {
        if !request.telescopes.contains(&number) {
            return Spans::default();
        }
        let Some(telescope) = self.telescopes.get(usize::from(number)) else {
            return Spans::default();
        };
        let timely = self.timely_slices(request);
        let usable = slices_in_any(self.len, request.seconds, &telescope.usable);
        let mut left = timely.meet(&usable);
        for target in &request.targets {
            left = match sky_of(&self.skies, *target, telescope.site) {
                Some(sky) => left.meet(&slices_in_any(self.len, request.seconds, &sky.spans)),
                None => Spans::default(),
            };
        }
        left
    }

    fn slices_of_pair(&self, pair: Pair) -> PairSlices {
        let found = self
            .requests
            .binary_search_by_key(&pair.request, |request| request.request);
        let slices = match found {
            Ok(place) => self.start_slices(&self.requests[place], pair.telescope),
            Err(_) => Spans::default(),
        };
        PairSlices { pair, slices }
    }

    fn pairs(&self) -> Vec<Pair> {
        let mut pairs = Vec::new();
        for request in &self.requests {
            for telescope in &request.telescopes {
                pairs.push(Pair {
                    request: request.request,
                    telescope: *telescope,
                });
            }
        }
        pairs
    }

    /// Finds the slices of all pairs, in two pieces for each processor.
    fn find_all(&self) -> Vec<PairSlices> {
        let pairs = self.pairs();
        let processors = thread::available_parallelism().map_or(1, |count| count.get());
        let pieces = 1 << (2 * processors).ilog2();
        thread::scope(|scope| {
            let threads: Vec<_> = pairs
                .chunks(pairs.len().div_ceil(pieces).max(1))
                .map(|piece| {
                    scope.spawn(|| -> Vec<PairSlices> {
                        piece
                            .iter()
                            .map(|pair| self.slices_of_pair(*pair))
                            .collect()
                    })
                })
                .collect();
            let mut found = Vec::with_capacity(pairs.len());
            for thread in threads {
                found.append(&mut thread.join().expect("no piece fails"));
            }
            found
        })
    }

    fn starts(&self) -> Result<Starts, u64> {
        let found = self.find_all();
        let slices = found.iter().flat_map(|pair| &pair.slices.items);
        let count = slices.map(|span| span.to - span.from).sum();
        if count > MOST_STARTS {
            return Err(count);
        }
        let mut runs = Vec::new();
        for PairSlices { pair, slices } in &found {
            for span in &slices.items {
                runs.push(Run {
                    request: pair.request,
                    telescope: pair.telescope,
                    first: span.from as u32,
                    count: (span.to - span.from) as u32,
                });
            }
        }
        let mut sums = Vec::with_capacity(runs.len());
        let mut sum = 0;
        for run in &runs {
            sum += run.count;
            sums.push(sum);
        }
        Ok(Starts { runs, sums })
    }
}

impl Starts {
    fn count(&self) -> u32 {
        self.sums.last().copied().unwrap_or(0)
    }

    /// The request, telescope and slice of the start at a place.
    fn at(&self, index: u32) -> (u32, u16, u32) {
        let place = self.sums.partition_point(|sum| *sum <= index);
        let run = self.runs[place];
        let before = place.checked_sub(1).map_or(0, |last| self.sums[last]);
        (run.request, run.telescope, run.first + index - before)
    }
}

/// When a target is visible from a site: 1,770 seconds of each of the nights, which begin each 54,000 seconds.
fn sky_at(target: u16, site: u16) -> Sky {
    let spans = (0..NIGHTS).map(|night| {
        let drawn = u64::from(target) * 7_919 + u64::from(site) * 104_729 + night * 1_299_709;
        let from = night * 54_000 + drawn % 36_000;
        Span {
            from,
            to: from + 1_770,
        }
    });
    Sky {
        target,
        site,
        spans: spans.collect(),
    }
}

fn nights() -> Vec<Span> {
    let begins = (0..NIGHTS).map(|night| night * 54_000);
    begins
        .map(|from| Span {
            from,
            to: from + 40_000,
        })
        .collect()
}

/// A snapshot with a horizon from this slice on, and so many telescopes at a site.
fn snapshot(first: u32, at_a_site: u16) -> Snapshot {
    let targets = 0..REQUESTS;
    let sites = 0..TELESCOPES / at_a_site;
    Snapshot {
        len: 300,
        first,
        slices: 1_440,
        telescopes: (0..TELESCOPES)
            .map(|telescope| Telescope {
                site: telescope / at_a_site,
                usable: nights(),
            })
            .collect(),
        skies: targets
            .clone()
            .flat_map(|target| sites.clone().map(move |site| sky_at(target, site)))
            .collect(),
        requests: targets
            .map(|target| Request {
                request: u32::from(target) + 1,
                seconds: 600,
                windows: vec![Span {
                    from: 0,
                    to: 432_000,
                }],
                telescopes: (0..TELESCOPES).collect(),
                targets: vec![target],
            })
            .collect(),
    }
}

/// Lists the starts, and says how long that takes under this name.
fn time_starts(name: &str, snapshot: &Snapshot) {
    let start = Instant::now();
    let starts = snapshot.starts();
    let time = start.elapsed();
    let starts = black_box(starts).expect("there are few enough starts");
    let (request, telescope, slice) = starts.at(starts.count() / 2);
    println!("listed {} {request} {telescope} {slice}", starts.count());
    println!("{name} {}", time.as_nanos());
}

fn main() {
    let first = black_box(snapshot(0, 1));
    for _ in 0..ROUNDS {
        time_starts("starts", &first);
    }
    for slice in 1..=ROUNDS {
        time_starts("mends", &black_box(snapshot(slice, TELESCOPES_AT_A_SITE)));
    }
}
