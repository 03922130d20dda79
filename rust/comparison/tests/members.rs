//! Compares the members that the library finds with those of the plain implementation: for random graphs, initial
//! features, directions and tables of answers.
//!
//! `COMPARISONS` in the environment is their number (100,000 without it), `SEED` the seed (1 without it).
#![forbid(unsafe_code)]

use comparison::plain::{Graph, Half, Label, least, reach};
use comparison::random::{Random, rows};
use guppy_features::{
    ConditionalLink, DependencyDirection, FeatureGraph, FeatureId, FeatureLabel, FeatureSet, LinkDeclarations,
    PackageGraph, PackageId,
};
use std::collections::HashMap;
use std::ops::Range;
use std::thread;

/// The number of comparisons over one graph.
const A_GRAPH: usize = 20;

/// A graph of both implementations. Features are found by the numbers of the plain one's nodes.
struct Both<'g> {
    plain: &'g Graph,
    proved: FeatureGraph<'g>,
    packages: &'g [PackageId],
}

impl<'g> Both<'g> {
    fn id(&self, node: usize) -> FeatureId<'g> {
        let (package, label) = &self.plain.nodes[node];
        let label = match label {
            Label::Base => FeatureLabel::Base,
            Label::Named(name) => FeatureLabel::Named(name),
            Label::Optional(name) => FeatureLabel::OptionalDependency(name),
        };
        FeatureId::new(&self.packages[*package], label)
    }

    /// Returns why the members of a set aren't these nodes, or `None`.
    fn difference(&self, set: &FeatureSet<'g>, members: &[bool]) -> Option<String> {
        let count = members.iter().filter(|it| **it).count();
        let other = (0..members.len()).find(|node| set.contains(self.id(*node)) != Ok(members[*node]));
        match other {
            Some(node) => Some(format!("{}: plain {}", self.id(node), members[node])),
            None if set.len() != count => Some(format!("{} features, plain {count}", set.len())),
            None => None,
        }
    }

    /// Returns the initial features of a comparison.
    fn initials(&self, random: &mut Random) -> Vec<usize> {
        let weak: Vec<usize> = self.plain.edges.iter().filter(|it| it.gate.is_some()).map(|it| it.from).collect();
        let mut nodes: Vec<usize> =
            (0..[0, 1, 1, 1, 2, 2, 3, 5][random.below(8)]).map(|_| random.below(self.plain.nodes.len())).collect();
        if random.chance(50) {
            nodes.extend(random.one(&weak));
        }
        nodes
    }

    /// Returns a table of answers, by edges and halves.
    fn table(&self, random: &mut Random) -> HashMap<(usize, Half), bool> {
        let percent = [0, 30, 60, 90, 100][random.below(5)];
        let offers = self.plain.edges.iter().enumerate();
        offers
            .flat_map(|(number, edge)| edge.offers.iter().map(move |(half, _)| (number, *half)))
            .map(|offer| (offer, random.chance(percent)))
            .collect()
    }

    /// Returns the table's answer to a link of the crate.
    fn answer(
        &self,
        link: ConditionalLink<'g>,
        edges: &HashMap<(FeatureId<'g>, FeatureId<'g>), usize>,
        table: &HashMap<(usize, Half), bool>,
    ) -> bool {
        let number = edges[&(link.from().feature_id(), link.to().feature_id())];
        let half = match link.declarations() {
            _ if self.plain.edges[number].gate.is_none() => Half::Full,
            LinkDeclarations::Required => Half::Required,
            LinkDeclarations::Optional => Half::Optional,
            LinkDeclarations::Unsplit => panic!("a weak edge isn't offered by its full link"),
        };
        table[&(number, half)]
    }

    /// Compares once, and returns how the answers differ.
    fn compare(&self, random: &mut Random, edges: &HashMap<(FeatureId<'g>, FeatureId<'g>), usize>) -> Option<String> {
        let is_forward = random.chance(60);
        let direction = if is_forward { DependencyDirection::Forward } else { DependencyDirection::Reverse };
        let initials = self.initials(random);
        let query = self.proved.query_directed(initials.iter().map(|node| self.id(*node)), direction);
        let query = query.expect("the graph has the initial features");
        if random.chance(10) {
            return self.difference(&query.resolve(), &reach(self.plain, is_forward, &initials));
        }
        let table = self.table(random);
        let members = least(self.plain, is_forward, &initials, |edge, half| table[&(edge, half)]);
        let set = query.resolve_with_fn(|link| self.answer(link, edges, &table));
        self.difference(&set, &members).map(|it| format!("{direction:?} from {initials:?}: {it}"))
    }
}

/// Makes comparisons over one graph, and returns their differences.
fn compare_graph(seed: u64) -> Vec<String> {
    let mut random = Random::new(seed);
    let rows = rows(&mut random);
    let plain = Graph::of(&rows);
    let graph = PackageGraph::from_rows(rows.as_str()).expect("the rows have no fault");
    let packages: Vec<PackageId> = plain.tables.packages.iter().map(|it| PackageId::new(it.id.as_str())).collect();
    let both = Both { plain: &plain, proved: graph.feature_graph(), packages: &packages };
    let edges =
        plain.edges.iter().enumerate().map(|(number, it)| ((both.id(it.from), both.id(it.to)), number)).collect();
    let differences = (0..A_GRAPH).filter_map(|_| both.compare(&mut random, &edges));
    differences.map(|it| format!("seed {seed}: {it}\n{rows}")).collect()
}

/// Makes comparisons over the graphs of these seeds, by as many threads as there are processors.
fn compare_graphs(seeds: Range<u64>) -> Vec<String> {
    let count = thread::available_parallelism().map_or(1, usize::from) as u64;
    let seeds = |part: u64| seeds.clone().filter(move |seed| seed % count == part);
    thread::scope(|scope| {
        let parts: Vec<_> = (0..count)
            .map(|part| scope.spawn(move || seeds(part).flat_map(compare_graph).collect::<Vec<String>>()))
            .collect();
        parts.into_iter().flat_map(|part| part.join().expect("a thread ends well")).collect()
    })
}

fn number(name: &str, usual: u64) -> u64 {
    std::env::var(name).map_or(usual, |it| it.parse().unwrap_or_else(|_| panic!("{name} is a number")))
}

#[test]
fn members_are_those_of_the_plain_implementation() {
    let graphs = number("COMPARISONS", 100_000).div_ceil(A_GRAPH as u64);
    let first = number("SEED", 1) << 32;
    let differences = compare_graphs(first..first + graphs);
    println!("{} compared, {} differ", graphs * A_GRAPH as u64, differences.len());
    assert!(differences.is_empty(), "{}", differences[0]);
}
