//! What the benches need: functions timed side by side, months as message files, two desks in plain Rust.
//!
//! | module | what it is |
//! |---|---|
//! | `linked` | the host's entry that replays a message file, and the driver of scripts |
//! | `amending` | a desk that amends its state and the book |
//! | `plain` | a desk that keeps the accepted calls and works the book out anew at each |
//! | `cause`, `series`, `row` | what the two share: causes and ranges, the table of series, a row of the book |
//! | `reader` | the reader of the two, and a check of a whole file by it |
//! | `replay` | a message file handed to one of the two |
//! | `script` | a script handed to the amending desk |
//! | `buffers` | what a replay is lent |
//! | `compare` | desks compared on a file |
//! | `months` | message files |
//! | `clock` | the processor time of a function |
//! | `stack` | the stack that a function uses |

pub mod amending;
pub mod buffers;
pub mod cause;
pub mod clock;
pub mod compare;
pub mod linked;
pub mod months;
pub mod plain;
pub mod reader;
pub mod replay;
pub mod row;
pub mod script;
pub mod series;
pub mod stack;

use std::time::Instant;

/// The best time of each of some functions, in nanoseconds a call. Each round calls the first one `calls` times, then the
/// next, so that what else the machine does falls on all. A round that is not counted goes before.
pub fn best<const N: usize>(
    rounds: usize,
    calls: usize,
    mut functions: [&mut dyn FnMut(); N],
) -> [f64; N] {
    let mut best = [f64::INFINITY; N];
    for round in 0..=rounds {
        for (best, function) in best.iter_mut().zip(&mut functions) {
            let time = timed(calls, function);
            if round > 0 {
                *best = best.min(time);
            }
        }
    }
    best
}

fn timed(calls: usize, function: &mut dyn FnMut()) -> f64 {
    let start = Instant::now();
    for _ in 0..calls {
        function();
    }
    start.elapsed().as_nanos() as f64 / calls as f64
}
