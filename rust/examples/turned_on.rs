//! Prints what a feature turns on by links for normal use; run it in `rust/`, by `cargo run --example turned_on`.
use guppy_features::{DependencyDirection::Forward, FeatureId, PackageGraph, PackageId};

fn main() -> Result<(), Box<dyn std::error::Error>> {
    let graph = PackageGraph::from_rows(std::fs::read("../examples/f1.rows")?)?;
    let package = PackageId::new("main");
    let query = graph.feature_graph().query_forward([FeatureId::named(&package, "smallvec")])?;
    let on = query.resolve_with_fn(|link| link.normal().is_present());
    on.feature_ids(Forward).for_each(|id| println!("{id}"));
    Ok(())
}
