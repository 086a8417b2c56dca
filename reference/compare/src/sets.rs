//! Sets of scans and sets of acceptors.

use crate::suite::Tests;

mod acceptors;
mod scans;

pub const TESTS: Tests = &[
    ("scans_of_one", scans::of_one),
    ("scans_edge_pairs", scans::edge_pairs),
    ("scans_random_pairs", scans::random_pairs),
    ("scans_edge_sets", scans::single_edges),
    ("scans_random_sets", scans::single_random),
    ("acceptors_union", acceptors::union),
    ("acceptors_with", acceptors::with),
    ("acceptors_size", acceptors::size),
    ("acceptors_fits", acceptors::fits),
    ("acceptors_majority", acceptors::majority),
];
