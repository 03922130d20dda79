//! Walks: a work list and waiting halves.
use super::edges::{Graph, Half};
use std::collections::HashMap;

/// Returns for each node whether it is in the least set that has `initials` and is closed under unconditional edges and
/// accepted offers; forward, an optional half counts only if the set has its gate. `accepts` gets the number of an
/// edge.
pub fn least(graph: &Graph, is_forward: bool, initials: &[usize], accepts: impl Fn(usize, Half) -> bool) -> Vec<bool> {
    let mut is_member = vec![false; graph.nodes.len()];
    let mut waiting: HashMap<usize, Vec<usize>> = HashMap::new();
    let mut work = initials.to_vec();
    while let Some(node) = work.pop() {
        if std::mem::replace(&mut is_member[node], true) {
            continue;
        }
        work.extend(waiting.remove(&node).unwrap_or_default());
        let numbers = if is_forward { &graph.leaving[node] } else { &graph.entering[node] };
        for number in numbers {
            let edge = &graph.edges[*number];
            let end = if is_forward { edge.to } else { edge.from };
            if edge.link.is_none() {
                work.push(end);
            }
            for (half, _) in edge.offers.iter().filter(|(half, _)| accepts(*number, *half)) {
                match edge.gate {
                    Some(gate) if is_forward && *half == Half::Optional && !is_member[gate] => {
                        waiting.entry(gate).or_default().push(end);
                    }
                    _ => work.push(end),
                }
            }
        }
    }
    is_member
}

/// Returns for each node whether a path of edges, possibly empty, leads to it from `initials`.
pub fn reach(graph: &Graph, is_forward: bool, initials: &[usize]) -> Vec<bool> {
    let mut is_member = vec![false; graph.nodes.len()];
    let mut work = initials.to_vec();
    while let Some(node) = work.pop() {
        if !std::mem::replace(&mut is_member[node], true) {
            let numbers = if is_forward { &graph.leaving[node] } else { &graph.entering[node] };
            work.extend(numbers.iter().map(|it| if is_forward { graph.edges[*it].to } else { graph.edges[*it].from }));
        }
    }
    is_member
}
