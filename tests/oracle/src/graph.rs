//! What things lead to: blocks by jumps, functions by calls.

use crate::table::Function;

/// The things that each thing leads to, by number.
pub type Graph = Vec<Vec<usize>>;

/// What can be reached from a thing by one edge or more.
pub fn behind(graph: &Graph, start: usize) -> Vec<bool> {
    let mut seen = vec![false; graph.len()];
    let mut ahead = vec![start];
    while let Some(from) = ahead.pop() {
        for &to in &graph[from] {
            if seen.get(to) == Some(&false) {
                seen[to] = true;
                ahead.push(to);
            }
        }
    }
    seen
}

/// Whether a thing reaches itself.
pub fn cyclic(graph: &Graph) -> bool {
    (0..graph.len()).any(|from| behind(graph, from)[from])
}

/// The things that lead to each thing; what leads to nothing that there is is
/// left out.
pub fn reversed(graph: &Graph) -> Graph {
    let mut reversed = vec![Vec::new(); graph.len()];
    for (from, behind) in graph.iter().enumerate() {
        for &to in behind {
            if let Some(before) = reversed.get_mut(to) {
                before.push(from);
            }
        }
    }
    reversed
}

/// The blocks that each block of a function goes to.
pub fn jumps(function: &Function) -> Graph {
    let blocks = function.blocks.iter();
    let targets = blocks.map(|block| block.transfer.targets());
    targets
        .map(|names| names.into_iter().map(usize::from).collect())
        .collect()
}

/// Which blocks of a function its entry is or leads to.
pub fn live(function: &Function) -> Vec<bool> {
    let mut live = behind(&jumps(function), 0);
    live[0] = true;
    live
}
