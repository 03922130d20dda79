//! Compares descriptions, cycles, roots, orders and checks of random graphs with the plain implementation.
#![forbid(unsafe_code)]

use comparison::plain::{Edge, Graph, Half, Label, Link, least};
use comparison::random::{Random, rows};
use guppy_features::{
    ConditionalLink, DependencyDirection, DependencyKind, FeatureEdge, FeatureGraphWarning, FeatureId, FeatureSet,
    LinkDeclarations, PackageGraph, PlatformStatus, Reason,
};
use std::collections::{BTreeMap, BTreeSet, HashMap};

const GRAPHS: u64 = 2_000;

/// Calls `compare` with each of some random graphs in both implementations.
fn for_each_graph(compare: impl Fn(&Graph, &PackageGraph)) {
    for seed in 0..GRAPHS {
        let rows = rows(&mut Random::new(seed));
        let graph = PackageGraph::from_rows(rows.as_str()).unwrap_or_else(|fault| panic!("{fault} in\n{rows}"));
        compare(&Graph::of(&rows), &graph);
    }
}

/// Returns the printed id of a node of the plain graph.
fn text(plain: &Graph, node: usize) -> String {
    let (package, label) = &plain.nodes[node];
    let id = &plain.tables.packages[*package].id;
    match label {
        Label::Base => format!("{id}/[base]"),
        Label::Named(name) => format!("{id}/{name}"),
        Label::Optional(name) => format!("{id}/dep:{name}"),
    }
}

/// Returns the set of nodes of the plain graph that a set of the crate has. Both number nodes alike.
fn nodes(graph: &PackageGraph, set: &FeatureSet<'_>) -> BTreeSet<usize> {
    let all = all_ids(graph);
    (0..all.len()).filter(|node| set.contains(all[*node]).expect("the graph has the feature")).collect()
}

/// Returns the ids of all features by their numbers: package by package the base, the features and the optional names.
fn all_ids(graph: &PackageGraph) -> Vec<FeatureId<'_>> {
    let ids = graph.packages().flat_map(|package| {
        let id = package.id();
        let named = package.named_features().map(move |name| FeatureId::named(id, name));
        let optional = package.optional_deps().map(move |name| FeatureId::optional_dependency(id, name));
        std::iter::once(FeatureId::base(id)).chain(named).chain(optional)
    });
    ids.collect()
}

fn rank_of(edge: FeatureEdge, declarations: Option<LinkDeclarations>) -> usize {
    match edge {
        FeatureEdge::FeatureToBase => 1,
        FeatureEdge::NamedFeature => 2,
        FeatureEdge::NamedFeatureDepColon => 3,
        FeatureEdge::NamedFeatureWithSlash if declarations == Some(LinkDeclarations::Optional) => 5,
        FeatureEdge::NamedFeatureWithSlash => 4,
        FeatureEdge::NamedFeatureWithWeakSlash => 6,
        FeatureEdge::DependenciesSection => 7,
    }
}

/// Compares the content of a link.
fn compare_link(plain: &Link, link: &ConditionalLink<'_>, graph: &PackageGraph) {
    let declarations = match plain.part {
        Half::Full => LinkDeclarations::Unsplit,
        Half::Required => LinkDeclarations::Required,
        Half::Optional => LinkDeclarations::Optional,
    };
    assert_eq!(link.declarations(), declarations);
    for (kind, status) in DependencyKind::VALUES.iter().copied().zip(&plain.statuses) {
        let wanted = match status {
            None => PlatformStatus::Always,
            Some(specs) if specs.is_empty() => PlatformStatus::Never,
            Some(specs) => PlatformStatus::PlatformDependent(specs),
        };
        assert_eq!(link.status_for_kind(kind), wanted, "{link}");
    }
    let all: Vec<_> = graph.links().map(|it| (it.from().id(), it.to().id())).collect();
    let wanted: Vec<_> = plain.package_links.iter().map(|number| all[*number]).collect();
    let found: Vec<_> = link.package_links().map(|it| (it.from().id(), it.to().id())).collect();
    assert_eq!(found, wanted, "{link}");
}

fn compare_tables(plain: &Graph, graph: &PackageGraph) {
    assert_eq!(graph.package_count(), plain.tables.packages.len());
    for (package, it) in graph.packages().zip(&plain.tables.packages) {
        assert_eq!((package.id().repr(), package.in_workspace()), (it.id.as_str(), it.in_workspace));
        assert!(package.named_features().eq(it.features.iter().map(|(name, _)| name)));
        assert!(it.features.iter().all(|(name, items)| package.items(name) == Some(items)));
        assert!(package.optional_deps().eq(&it.optional));
    }
    assert_eq!(graph.link_count(), plain.tables.links.len());
    for (link, it) in graph.links().zip(&plain.tables.links) {
        assert_eq!(link.dep_name(), it.name);
        assert_eq!(link.from().id().repr(), plain.tables.packages[it.from].id);
        assert_eq!(link.to().id().repr(), plain.tables.packages[it.to].id);
        assert_eq!(link.declarations().len(), it.declarations.len());
        for (declaration, it) in link.declarations().iter().zip(&it.declarations) {
            assert_eq!(declaration.kind as usize, it.kind);
            assert_eq!((declaration.optional, declaration.default_features), (it.is_optional, it.has_default));
            assert_eq!((&declaration.platform, &declaration.features), (&it.platform, &it.features));
        }
    }
}

fn compare_offers(plain: &Graph, graph: &PackageGraph, numbers: &HashMap<FeatureId<'_>, usize>) {
    let wanted: Vec<(&Edge, &Link)> =
        plain.edges.iter().flat_map(|edge| edge.offers.iter().map(move |(_, link)| (edge, link))).collect();
    let offers: Vec<_> = graph.feature_graph().offers().collect();
    assert_eq!(offers.len(), wanted.len());
    for (offer, (edge, link)) in offers.iter().zip(wanted) {
        assert_eq!(ends(offer, numbers), (edge.from, edge.to));
        compare_link(link, offer, graph);
    }
}

fn ends(link: &ConditionalLink<'_>, numbers: &HashMap<FeatureId<'_>, usize>) -> (usize, usize) {
    (numbers[&link.from().feature_id()], numbers[&link.to().feature_id()])
}

#[test]
fn tables_are_those_of_the_rows() {
    for_each_graph(compare_tables);
}

#[test]
fn nodes_warnings_and_defaults_are_those_of_the_rules() {
    for_each_graph(|plain, graph| {
        let ids: Vec<String> = all_ids(graph).iter().map(FeatureId::to_string).collect();
        let wanted: Vec<String> = (0..plain.nodes.len()).map(|node| text(plain, node)).collect();
        assert_eq!((ids, graph.feature_graph().feature_count()), (wanted, plain.nodes.len()));
        let defaults = all_ids(graph).into_iter().map(|id| graph.feature_graph().is_default_feature(id) == Ok(true));
        assert!(defaults.eq(plain.defaults()));
        let warnings = graph.feature_graph().build_warnings().iter().map(|it| match it {
            FeatureGraphWarning::SelfLoop { package_id, feature_name } => (true, package_id.repr(), feature_name),
            FeatureGraphWarning::MissingFeature { package_id, feature_name } => {
                (false, package_id.repr(), feature_name)
            }
            other => panic!("another warning: {other}"),
        });
        let wanted = plain.warnings();
        let wanted = wanted.iter().map(|(own, at, name)| (*own, plain.tables.packages[*at].id.as_str(), name));
        assert!(warnings.eq(wanted));
    });
}

#[test]
fn edges_and_offers_are_those_of_the_rules() {
    for_each_graph(|plain, graph| {
        let numbers: HashMap<FeatureId<'_>, usize> = all_ids(graph).into_iter().zip(0..).collect();
        let all = graph.feature_graph().resolve_all();
        let edges: BTreeMap<(usize, usize), FeatureEdge> = all
            .links(DependencyDirection::Forward)
            .map(|(from, to, edge)| ((numbers[&from], numbers[&to]), edge))
            .collect();
        let full: BTreeMap<(usize, usize), ConditionalLink<'_>> =
            all.conditional_links(DependencyDirection::Forward).map(|link| (ends(&link, &numbers), link)).collect();
        assert_eq!(edges.len(), plain.edges.len());
        for it in &plain.edges {
            let pair = (it.from, it.to);
            let link = full.get(&pair);
            assert_eq!(rank_of(edges[&pair], link.map(ConditionalLink::declarations)), it.rank);
            assert_eq!(link.is_some(), it.link.is_some());
            if let (Some(link), Some(content)) = (link, &it.link) {
                compare_link(content, link, graph);
            }
        }
        compare_offers(plain, graph, &numbers);
    });
}

#[test]
fn cycles_are_the_components_with_one() {
    for_each_graph(|plain, graph| {
        let cycles = graph.feature_graph().cycles();
        let all = all_ids(graph);
        let number = |id: FeatureId<'_>| all.iter().position(|it| *it == id).expect("the graph has the feature");
        let found: BTreeSet<BTreeSet<usize>> =
            cycles.all_cycles().map(|cycle| cycle.into_iter().map(number).collect()).collect();
        let wanted = plain.cycles();
        assert_eq!(found, wanted);
        for (a, b) in (0..all.len()).flat_map(|a| (0..all.len()).map(move |b| (a, b))) {
            let is_common = wanted.iter().any(|cycle| cycle.contains(&a) && cycle.contains(&b));
            assert_eq!(cycles.is_cyclic(all[a], all[b]), Ok(is_common));
        }
    });
}

#[test]
fn roots_and_orders_are_those_of_sets() {
    for_each_graph(|plain, graph| {
        let mut random = Random::new(plain.edges.len() as u64);
        let all = all_ids(graph);
        let components = plain.components();
        for direction in [DependencyDirection::Forward, DependencyDirection::Reverse] {
            let some: Vec<_> = all.iter().filter(|_| random.chance(70)).copied().collect();
            let set = graph.feature_graph().resolve_ids(some).expect("the graph has the features");
            let members = nodes(graph, &set);
            let number = |id: FeatureId<'_>| all.iter().position(|it| *it == id).expect("the graph has the feature");
            let is_forward = direction == DependencyDirection::Forward;
            let roots: BTreeSet<usize> = set.root_ids(direction).map(number).collect();
            assert_eq!(roots, plain.roots(is_forward, &members));
            let order: Vec<usize> = set.feature_ids(direction).map(number).collect();
            assert_eq!(order.iter().copied().collect::<BTreeSet<_>>(), members);
            let place = |node: usize| order.iter().position(|it| *it == node);
            for edge in plain.edges.iter().filter(|it| !components[it.from].contains(&it.to)) {
                if let (Some(from), Some(to)) = (place(edge.from), place(edge.to)) {
                    assert_eq!(from < to, is_forward);
                }
            }
        }
    });
}

#[test]
fn explanations_pass_the_check_and_changed_ones_fail() {
    for_each_graph(|plain, graph| {
        let mut random = Random::new(plain.nodes.len() as u64);
        let all = all_ids(graph);
        let features = graph.feature_graph();
        let initials = [all[random.below(all.len())]];
        for direction in [DependencyDirection::Forward, DependencyDirection::Reverse] {
            let query = features.query_directed(initials, direction).expect("the graph has the feature");
            let explained = query.resolve_explained(|link| link.normal().is_present());
            let (steps, refused) = (explained.steps(), explained.refused());
            let check =
                |steps: &[(FeatureId<'_>, Reason<'_>)]| features.check_exact(direction, initials, steps, refused);
            assert_eq!(check(steps), Ok(true));
            // without its last step the list isn't closed, and with a step twice it is no explanation
            assert_eq!(check(&steps[..steps.len() - 1]), Ok(false));
            assert_eq!(check(&[steps, &steps[..1]].concat()), Ok(false));
            for (id, _) in steps {
                let why = explained.why(*id).expect("the graph has it").expect("the set has it");
                assert_eq!(why.last().map(|step| step.0), Some(*id));
                let pruned = features.query_directed(initials, direction).expect("the graph has the feature");
                let used = |link: ConditionalLink<'_>| {
                    let (from, to, part) = (link.from().feature_id(), link.to().feature_id(), link.declarations());
                    why.iter().any(|step| step.1 == Reason::Link { from, to, declarations: part })
                };
                assert_eq!(pruned.resolve_with_fn(used).contains(*id), Ok(true));
            }
        }
    });
}

#[test]
fn a_set_of_all_links_is_that_of_the_plain_walk() {
    for_each_graph(|plain, graph| {
        let all = all_ids(graph);
        for (node, id) in all.iter().enumerate() {
            let query = graph.feature_graph().query_forward([*id]).expect("the graph has the feature");
            let members = least(plain, true, &[node], |_, _| true);
            let wanted: BTreeSet<usize> = (0..members.len()).filter(|it| members[*it]).collect();
            assert_eq!(nodes(graph, &query.resolve_with_fn(|_| true)), wanted);
        }
    });
}
