//! Faults of rows and unknown ids.
#![forbid(unsafe_code)]

use guppy_features::{DependencyDirection, Error, FeatureId, PackageGraph, PackageId, Reason, RowFault, RowsError};

const ROWS: &str = "package\ta\tworkspace\nfeature\tf\n";

fn fault(rows: impl Into<Vec<u8>>) -> RowsError {
    PackageGraph::from_rows(rows).expect_err("the rows have a fault")
}

#[test]
fn each_fault_names_its_line() {
    assert_eq!(fault(b"\xff".as_slice()), RowsError::NotText);
    assert_eq!(fault("package\ta\tworkspace\n\nx\n"), RowsError::Malformed { line: 3 });
    for (rows, line, fault_of_row, text) in [
        ("# a comment\nfeature\tf\n", 2, RowFault::NoPackage, "line 2: no package"),
        ("package\ta\texternal\npackage\ta\tworkspace\n", 2, RowFault::DuplicatePackage, "line 2: duplicate package"),
        ("package\ta\texternal\nfeature\tf\nfeature\tf\n", 3, RowFault::DuplicateFeature, "line 3: duplicate feature"),
        (
            "package\ta\texternal\ndep\tb\tb\tnormal\trequired\t*\tdefault\n",
            2,
            RowFault::UnknownTarget,
            "line 2: unknown target",
        ),
        (
            "package\ta\texternal\ndep\tx\ta\tdev\trequired\t*\tdefault\ndep\ty\ta\tdev\trequired\t*\tdefault\n",
            3,
            RowFault::OtherName,
            "line 3: other name",
        ),
    ] {
        assert_eq!(fault(rows), RowsError::Row { line, fault: fault_of_row });
        assert_eq!(fault(rows).to_string(), text);
    }
}

#[test]
fn no_rows_are_an_empty_graph() {
    let graph = PackageGraph::from_rows("").expect("there is no fault");
    assert_eq!((graph.package_count(), graph.link_count()), (0, 0));
    let features = graph.feature_graph();
    assert_eq!((features.feature_count(), features.link_count()), (0, 0));
    assert!(features.resolve_all().is_empty());
    assert_eq!(features.cycles().all_cycles().len(), 0);
    assert_eq!(features.resolve_all().feature_ids(DependencyDirection::Forward).len(), 0);
}

#[test]
fn the_first_unknown_id_is_the_error() {
    let graph = PackageGraph::from_rows(ROWS).expect("there is no fault");
    let features = graph.feature_graph();
    let (known, unknown) = (PackageId::new("a"), PackageId::new("b"));
    let ids = [FeatureId::named(&known, "f"), FeatureId::named(&known, "g"), FeatureId::base(&unknown)];
    let error = Error::UnknownFeatureId(known.clone(), "g".to_owned());
    assert_eq!(features.query_forward(ids).unwrap_err(), error);
    assert_eq!(features.resolve_ids(ids).unwrap_err(), error);
    assert_eq!(features.metadata(ids[1]).unwrap_err(), error);
    assert_eq!(features.is_default_feature(ids[2]), Err(Error::UnknownPackageId(unknown.clone())));
    assert_eq!(features.is_default_feature(ids[1]), Err(error));
    assert!(!features.contains(FeatureId::optional_dependency(&known, "f")));
    assert_eq!(features.all_features_for(&unknown).unwrap_err(), Error::UnknownPackageId(unknown));
}

#[test]
fn steps_with_unknown_names_are_no_explanation() {
    let graph = PackageGraph::from_rows(ROWS).expect("there is no fault");
    let features = graph.feature_graph();
    let id = PackageId::new("a");
    let base = FeatureId::base(&id);
    let check = |steps: &[(FeatureId<'_>, Reason<'_>)]| {
        features.check_exact(DependencyDirection::Forward, [base], steps, &[]).expect("the graph has the feature")
    };
    assert!(check(&[(base, Reason::Initial)]));
    assert!(!check(&[(base, Reason::Initial), (FeatureId::named(&id, "g"), Reason::Initial)]));
    assert!(!check(&[(base, Reason::Edge { from: base, to: base })]));
}

#[test]
fn several_threads_ask_one_graph() {
    let graph = PackageGraph::from_rows(ROWS).expect("there is no fault");
    std::thread::scope(|scope| {
        let asked: Vec<_> = (0..8)
            .map(|_| {
                scope.spawn(|| graph.feature_graph().resolve_all().feature_ids(DependencyDirection::Forward).count())
            })
            .collect();
        for it in asked {
            assert_eq!(it.join().expect("the thread ends well"), 2);
        }
    });
}
