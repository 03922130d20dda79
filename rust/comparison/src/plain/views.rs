//! Components, cycles and roots, by reach alone.
use super::edges::Graph;
use super::walk::reach;
use std::collections::BTreeSet;

impl Graph {
    /// Returns the component of each node: the nodes to which paths lead from it and back.
    pub fn components(&self) -> Vec<BTreeSet<usize>> {
        let all = 0..self.nodes.len();
        let component = |node| {
            let (to, back) = (reach(self, true, &[node]), reach(self, false, &[node]));
            all.clone().filter(|it| to[*it] && back[*it]).collect()
        };
        all.clone().map(component).collect()
    }

    /// Returns the components that have a cycle.
    pub fn cycles(&self) -> BTreeSet<BTreeSet<usize>> {
        let has_cycle = |it: &BTreeSet<usize>| {
            it.len() > 1 || it.iter().any(|node| self.leaving[*node].iter().any(|edge| self.edges[*edge].to == *node))
        };
        self.components().into_iter().filter(has_cycle).collect()
    }

    /// Returns the members whose component no edge between members leaves, or none enters in reverse.
    pub fn roots(&self, is_forward: bool, members: &BTreeSet<usize>) -> BTreeSet<usize> {
        let components = self.components();
        let is_root = |node: &usize| {
            self.edges.iter().all(|edge| {
                let (start, end) = if is_forward { (edge.from, edge.to) } else { (edge.to, edge.from) };
                let is_between = members.contains(&start) && members.contains(&end);
                !is_between || !components[*node].contains(&start) || components[*node].contains(&end)
            })
        };
        members.iter().copied().filter(is_root).collect()
    }
}
