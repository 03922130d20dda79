//! Times of a graph and of resolves, through the crate and by the plain implementation.
//!
//! `cargo run --release --example times FILE.rows` prints lines with a name and the mean processor time of a run in
//! milliseconds, over runs of a second in all. A resolve is forward from the base of the first package, over all edges
//! and with each link accepted. The processor time is read from Linux.
use comparison::plain::{Graph, least, reach};
use guppy_features::{FeatureId, PackageGraph};
use std::fs;

/// Returns the nanoseconds that a processor has spent on this program's only thread.
fn processor_time() -> u64 {
    let text = fs::read_to_string("/proc/self/schedstat").expect("Linux says the processor time");
    let first = text.split(' ').next().and_then(|it| it.parse().ok());
    first.expect("the first field is a number")
}

/// Prints the mean time of runs of a second in all, and returns the last result.
fn timed<T>(name: &str, run: impl Fn() -> T) -> T {
    let start = processor_time();
    let mut runs = 0;
    loop {
        let result = run();
        runs += 1;
        let spent = processor_time() - start;
        if spent > 1_000_000_000 {
            println!("{name}\t{:.4} ms", spent as f64 / f64::from(runs) / 1e6);
            return result;
        }
    }
}

fn main() -> Result<(), Box<dyn std::error::Error>> {
    let path = std::env::args().nth(1).ok_or("usage: times FILE.rows")?;
    let rows = fs::read_to_string(path)?;
    let graph = timed("crate: from_rows", || PackageGraph::from_rows(rows.as_str()))?;
    let first = graph.packages().next().ok_or("no package")?.id().clone();
    let query = graph.feature_graph().query_forward([FeatureId::base(&first)])?;
    let reached = timed("crate: resolve", || query.clone().resolve());
    let accepted = timed("crate: resolve_with_fn", || query.clone().resolve_with_fn(|_| true));
    let plain = timed("plain: rows to graph", || Graph::of(&rows));
    let plain_reached = timed("plain: resolve", || reach(&plain, true, &[0]));
    let plain_accepted = timed("plain: resolve with answers", || least(&plain, true, &[0], |_, _| true));
    let count = |members: &[bool]| members.iter().filter(|it| **it).count();
    assert_eq!((reached.len(), accepted.len()), (count(&plain_reached), count(&plain_accepted)));
    println!("features\t{}\nreached\t{}", plain.nodes.len(), reached.len());
    Ok(())
}
