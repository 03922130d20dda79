//! Compares the algebra, the parts and the lists of sets with sets of std.
#![forbid(unsafe_code)]

use comparison::random::{Random, rows};
use guppy_features::{
    DependencyDirection, FeatureFilterFn, FeatureId, FeatureSet, PackageGraph, PackageId, StandardFeatures,
    feature_id_filter, named_feature_filter,
};
use std::collections::{BTreeMap, BTreeSet};

type Ids<'g> = BTreeSet<FeatureId<'g>>;

const DIRECTIONS: [DependencyDirection; 2] = [DependencyDirection::Forward, DependencyDirection::Reverse];

/// Calls `compare` with random graphs, and with two random sets of each.
fn for_each_pair(compare: impl Fn(&PackageGraph, &FeatureSet<'_>, &FeatureSet<'_>)) {
    for seed in 0..1_000 {
        let mut random = Random::new(seed);
        let graph = PackageGraph::from_rows(rows(&mut random)).expect("the rows have no fault");
        let features = graph.feature_graph();
        let mut some = || features.resolve_all().filter(DependencyDirection::Forward, |_| random.chance(50));
        let (a, b) = (some(), some());
        compare(&graph, &a, &b);
    }
}

fn ids<'g>(set: &FeatureSet<'g>) -> Ids<'g> {
    let ids: Ids<'g> = set.feature_ids(DependencyDirection::Reverse).collect();
    assert_eq!(ids.len(), set.len());
    ids
}

#[test]
fn the_algebra_is_that_of_sets() {
    for_each_pair(|graph, a, b| {
        let features = graph.feature_graph();
        assert_eq!(ids(&a.union(b)), &ids(a) | &ids(b));
        assert_eq!(ids(&a.intersection(b)), &ids(a) & &ids(b));
        assert_eq!(ids(&a.difference(b)), &ids(a) - &ids(b));
        assert_eq!(ids(&a.symmetric_difference(b)), &ids(a) ^ &ids(b));
        assert_eq!(a == b, ids(a) == ids(b));
        assert_eq!(a.is_empty(), ids(a).is_empty());
        assert_eq!(features.resolve_ids(ids(a)).as_ref(), Ok(a));
        assert_eq!(a.difference(b).union(&a.intersection(b)), *a);
        assert_eq!((features.resolve_all().len(), features.resolve_none().len()), (features.feature_count(), 0));
    });
}

#[test]
fn parts_have_the_features_of_their_answers() {
    for_each_pair(|_, a, b| {
        for direction in DIRECTIONS {
            let has = |id: FeatureId<'_>| b.contains(id) == Ok(true);
            let mut asked = Vec::new();
            let (passed, others) = a.partition(direction, |feature| {
                asked.push(feature.feature_id());
                has(feature.feature_id())
            });
            assert!(a.feature_ids(direction).eq(asked));
            assert_eq!((passed, others), (a.intersection(b), a.difference(b)));
            let (named, bases) = a.filter_partition(direction, |feature| match feature.feature_id() {
                id if id.is_named() => Some(true),
                id if id.is_base() => Some(false),
                _ => None,
            });
            assert_eq!(ids(&named), ids(a).into_iter().filter(FeatureId::is_named).collect());
            assert_eq!(ids(&bases), ids(a).into_iter().filter(FeatureId::is_base).collect());
        }
    });
}

#[test]
fn lists_and_packages_have_the_features_of_the_set() {
    for_each_pair(|graph, a, _| {
        let mut by_package: BTreeMap<&PackageId, Vec<FeatureId<'_>>> = BTreeMap::new();
        ids(a).into_iter().for_each(|id| by_package.entry(id.package_id()).or_default().push(id));
        for package in graph.packages() {
            let list = a.features_for(package.id()).expect("the graph has the package");
            let found: Option<Vec<FeatureId<'_>>> = list.map(|it| it.into_iter().collect());
            assert_eq!(found.as_ref(), by_package.get(package.id()));
            assert_eq!(a.contains_package(package.id()), Ok(found.is_some()));
            assert_eq!(a.to_package_set().contains(package.id()), Ok(found.is_some()));
        }
        for direction in DIRECTIONS {
            let query = a.to_feature_query(direction);
            assert_eq!((query.initials(), query.direction()), (a, direction));
            let packages: Vec<&PackageId> = a.to_package_set().packages(direction).map(|it| it.id()).collect();
            assert!(a.packages_with_features(direction).map(|list| list.package().id()).eq(packages.iter().copied()));
            assert_eq!(packages.iter().copied().collect::<BTreeSet<_>>(), by_package.keys().copied().collect());
            let again: BTreeSet<_> = query.initial_packages().map(|it| it.id()).collect();
            assert_eq!(again, by_package.keys().copied().collect());
        }
    });
}

#[test]
fn workspace_queries_start_from_what_filters_accept() {
    for_each_pair(|graph, a, _| {
        let features = graph.feature_graph();
        let all = features.resolve_all();
        let members: Ids<'_> = all
            .features(DependencyDirection::Forward)
            .filter(|it| it.package().in_workspace())
            .map(|it| it.feature_id())
            .collect();
        let accepted =
            |accepts: &dyn Fn(&FeatureId<'_>) -> bool| members.iter().copied().filter(accepts).collect::<Ids<'_>>();
        let by_set = features.query_workspace(FeatureFilterFn::new(|_, id| a.contains(id) == Ok(true)));
        assert_eq!(ids(by_set.initials()), accepted(&|id| a.contains(*id) == Ok(true)));
        let is_default = |id: &FeatureId<'_>| features.is_default_feature(*id) == Ok(true);
        let initials = StandardFeatures::VALUES.map(|it| ids(features.query_workspace(it).initials()));
        assert_eq!(initials, [accepted(&|id| id.is_base()), accepted(&is_default), accepted(&|_| true)]);
        let named = features.query_workspace(named_feature_filter(StandardFeatures::None, ["a", "b"]));
        let is_a_or_b = |id: &FeatureId<'_>| id.is_named() && ["a", "b"].contains(&id.label().to_string().as_str());
        assert_eq!(ids(named.initials()), accepted(&|id| id.is_base() || is_a_or_b(id)));
        let listed = features.query_workspace(feature_id_filter(StandardFeatures::Default, ids(a)));
        assert_eq!(ids(listed.initials()), accepted(&|id| is_default(id) || ids(a).contains(id)));
    });
}
