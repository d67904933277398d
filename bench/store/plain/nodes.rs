//! Random trees, as plans: those of the crate store_bench.

/// A node of a tree whose nodes come after their parts: how many of the last terms are its parts, and the integer that it is where it has none.
pub struct Node {
    pub count: usize,
    pub value: i64,
}

fn next(state: &mut u64) -> u32 {
    *state = state.wrapping_mul(6_364_136_223_846_793_005).wrapping_add(1_442_695_040_888_963_407);
    (*state >> 33) as u32
}

pub fn random_nodes(size: u32) -> Vec<Node> {
    let mut nodes = Vec::new();
    let mut open = vec![size];
    let mut state = 42;
    for _ in 0..size {
        let Some(here) = open.pop() else {
            break;
        };
        let below = here - 1;
        let count = (1 + next(&mut state) % 3).min(below);
        let mut left = below;
        for k in 0..count {
            let after = count - k - 1;
            let most = (left - after).max(1);
            let part = if after == 0 { most } else { 1 + next(&mut state) % most };
            left -= part;
            open.push(part);
        }
        let value = (next(&mut state) % 16) as i64;
        nodes.push(Node { count: count as usize, value });
    }
    nodes.reverse();
    nodes
}
