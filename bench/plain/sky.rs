// Telescopes and skies as a snapshot holds them, in plain Rust: what the baselines of several benchmarks share.

use crate::spans::Span;

/// The site of a telescope, and when it can be used.
pub struct Telescope {
    pub site: u16,
    pub usable: Vec<Span>,
}

/// When a target is visible from a site.
pub struct Sky {
    pub target: u16,
    pub site: u16,
    pub spans: Vec<Span>,
}
