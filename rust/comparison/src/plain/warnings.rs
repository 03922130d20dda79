//! Warnings and default marks.
use super::edges::{Graph, Label};

impl Graph {
    /// Returns the warnings: whether a feature names itself, the package, and the name that it lacks.
    pub fn warnings(&self) -> Vec<(bool, usize, String)> {
        let mut all = Vec::new();
        for (number, package) in self.tables.packages.iter().enumerate() {
            for (feature, items) in &package.features {
                items.iter().for_each(|item| self.warn_of_item(number, feature, item, &mut all));
            }
        }
        for link in &self.tables.links {
            let listed = link.declarations.iter().flat_map(|it| &it.features);
            let lacking = listed.filter(|name| !self.tables.packages[link.to].has(name));
            all.extend(lacking.map(|name| (false, link.to, name.clone())));
        }
        all
    }

    fn warn_of_item(&self, package: usize, feature: &str, item: &str, all: &mut Vec<(bool, usize, String)>) {
        let content = &self.tables.packages[package];
        if let Some((left, wanted)) = item.split_once('/') {
            let name = left.strip_suffix('?').unwrap_or(left);
            let links: Vec<_> = self.tables.links.iter().filter(|it| it.from == package && it.name == name).collect();
            if links.is_empty() {
                all.push((false, package, name.to_owned()));
            }
            let lacking = links.iter().filter(|link| !self.tables.packages[link.to].has(wanted));
            all.extend(lacking.map(|link| (false, link.to, wanted.to_owned())));
        } else if let Some(name) = item.strip_prefix("dep:") {
            if !content.optional.iter().any(|it| it == name) {
                all.push((false, package, item.to_owned()));
            }
        } else if item == feature {
            all.push((true, package, item.to_owned()));
        } else if !content.has(item) {
            all.push((false, package, item.to_owned()));
        }
    }

    /// Returns for each node whether it is on by default in its package.
    pub fn defaults(&self) -> Vec<bool> {
        let mut is_on = vec![false; self.nodes.len()];
        let mut work = Vec::new();
        for package in 0..self.tables.packages.len() {
            let default = self.node(package, Label::Named("default".to_owned()));
            work.extend(default.or(self.node(package, Label::Base)));
        }
        while let Some(node) = work.pop() {
            if !std::mem::replace(&mut is_on[node], true) {
                let edges = self.leaving[node].iter().map(|it| &self.edges[*it]);
                work.extend(edges.filter(|edge| edge.rank <= 2).map(|edge| edge.to));
            }
        }
        is_on
    }
}
