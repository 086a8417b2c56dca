//! Machines that do a single event wrongly, and the events of a run truly.

use super::{by_run, Calls, Wrong, RUNS, STEPS};
use crate::machine::LOG;

pub const LIST: &[Wrong] = &[
    Wrong {
        name: "StepsTwice",
        meaning: " Does a single event twice.",
        calls: Calls {
            step: |run, sizes, lent, event| {
                let said = by_run(run, sizes, lent, event);
                by_run(run, sizes, lent, event);
                said
            },
            ..Calls::TRUE
        },
        noticed_by: (RUNS, "calm"),
    },
    Wrong {
        name: "StepsForget",
        meaning: " Leaves the records and slots of a single event as they were.",
        calls: Calls {
            step: |run, sizes, lent, event| by_run(run, sizes, &mut lent.clone(), event),
            ..Calls::TRUE
        },
        noticed_by: (RUNS, "calm"),
    },
    Wrong {
        name: "StepsSayOk",
        meaning: " Says ok of a single event that it does not do, out of range.",
        calls: Calls {
            step: |run, sizes, lent, event| match by_run(run, sizes, lent, event) {
                [1, 0] => [0; LOG],
                said => said,
            },
            ..Calls::TRUE
        },
        noticed_by: (STEPS, "fields_past_their_ranges"),
    },
];
