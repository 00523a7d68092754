//! The strongly connected components of a graph, by Tarjan's algorithm.

/// For each node the number of its component; `edges` has the nodes to which each node leads. Two nodes
/// have the same number just where each can be reached from the other. No edge is needed from a node to
/// itself, so one that shares its component with no other is a component of its own.
pub fn components(edges: &[Vec<usize>]) -> Vec<usize> {
    let nodes = edges.len();
    let mut search = Search {
        edges,
        number: vec![0; nodes],
        low: vec![0; nodes],
        numbered: 0,
        stack: Vec::new(),
        component: vec![None; nodes],
        found: 0,
    };
    for node in 0..nodes {
        if search.number[node] == 0 {
            search.visit(node);
        }
    }
    search.component.into_iter().flatten().collect()
}

struct Search<'a> {
    edges: &'a [Vec<usize>],
    /// 0: not visited.
    number: Vec<usize>,
    low: Vec<usize>,
    numbered: usize,
    stack: Vec<usize>,
    /// A visited node that is in none yet is on the stack.
    component: Vec<Option<usize>>,
    found: usize,
}

impl Search<'_> {
    fn visit(&mut self, node: usize) {
        self.numbered += 1;
        self.number[node] = self.numbered;
        self.low[node] = self.numbered;
        self.stack.push(node);
        let edges = self.edges;
        for &to in &edges[node] {
            if self.number[to] == 0 {
                self.visit(to);
                self.low[node] = self.low[node].min(self.low[to]);
            } else if self.component[to].is_none() {
                self.low[node] = self.low[node].min(self.number[to]);
            }
        }
        if self.low[node] == self.number[node] {
            self.take_component(node);
        }
    }

    /// The nodes on the stack from this one on are a component.
    fn take_component(&mut self, first: usize) {
        loop {
            let node = self.stack.pop().expect("the first node is on the stack");
            self.component[node] = Some(self.found);
            if node == first {
                break;
            }
        }
        self.found += 1;
    }
}

#[cfg(test)]
pub mod tests {
    use super::*;
    use crate::generate::Random;

    /// For each two nodes whether the first leads to the second, by any number of edges, also none: all
    /// ways through the nodes below 1, below 2, .. are joined (Warshall).
    pub fn reaches(edges: &[Vec<usize>]) -> Vec<Vec<bool>> {
        let nodes = edges.len();
        let mut reaches: Vec<Vec<bool>> =
            (0..nodes).map(|from| (0..nodes).map(|to| from == to || edges[from].contains(&to)).collect()).collect();
        for through in 0..nodes {
            for from in 0..nodes {
                for to in 0..nodes {
                    reaches[from][to] |= reaches[from][through] && reaches[through][to];
                }
            }
        }
        reaches
    }

    /// The components as lists of nodes, each ascending, by their first nodes.
    fn parts(edges: &[&[usize]]) -> Vec<Vec<usize>> {
        let edges: Vec<Vec<usize>> = edges.iter().map(|to| to.to_vec()).collect();
        let component = components(&edges);
        assert_eq!(component.len(), edges.len());
        let mut parts: Vec<Vec<usize>> = Vec::new();
        for node in 0..edges.len() {
            match parts.iter_mut().find(|part| component[part[0]] == component[node]) {
                Some(part) => part.push(node),
                None => parts.push(vec![node]),
            }
        }
        parts
    }

    #[test]
    fn lone_nodes() {
        assert_eq!(parts(&[]), [] as [Vec<usize>; 0]);
        // Without a loop and with one.
        assert_eq!(parts(&[&[]]), [[0]]);
        assert_eq!(parts(&[&[0]]), [[0]]);
        // Those that are passed through only.
        assert_eq!(parts(&[&[1], &[2], &[2]]), [[0], [1], [2]]);
    }

    #[test]
    fn one_way_edges_join_nothing() {
        assert_eq!(parts(&[&[1], &[1]]), [[0], [1]]);
        assert_eq!(parts(&[&[0], &[0]]), [[0], [1]]);
        assert_eq!(parts(&[&[0, 1], &[1, 1]]), [[0], [1]]);
        assert_eq!(parts(&[&[1], &[0]]), [[0, 1]]);
    }

    #[test]
    fn components_that_lie_between_one_another() {
        // 0 and 2, and 1 and 3; the first leads to the second, or the second to the first.
        assert_eq!(parts(&[&[2, 1], &[3], &[0], &[1, 1]]), [[0, 2], [1, 3]]);
        assert_eq!(parts(&[&[2], &[3, 2], &[0], &[1, 0]]), [[0, 2], [1, 3]]);
        assert_eq!(parts(&[&[2, 1], &[3, 0], &[0], &[1]]), [[0, 1, 2, 3]]);
    }

    #[test]
    fn nodes_that_the_first_does_not_reach() {
        // Nothing leads from 0 to the others; 3 and 4 are a component, 1 and 2 pass through.
        assert_eq!(parts(&[&[0], &[2], &[3, 0], &[4], &[3]]), [vec![0], vec![1], vec![2], vec![3, 4]]);
    }

    #[test]
    fn an_edge_into_an_older_component() {
        // 0 leads to 1 and 2, and 2 to 1, which has left the stack when 2 is visited.
        assert_eq!(parts(&[&[1, 2], &[1], &[1, 2]]), [[0], [1], [2]]);
        // Two loops through 1 make one component.
        assert_eq!(parts(&[&[1], &[2, 3], &[0], &[1], &[0, 4]]), [vec![0, 1, 2, 3], vec![4]]);
    }

    #[test]
    fn same_number_just_where_each_reaches_the_other() {
        let mut random = Random::new(31);
        let mut sizes = [0; 17];
        for _ in 0..2000 {
            let (nodes, most) = (random.within(1, 16), random.within(0, 3));
            let mut leads = |_| (0..random.within(0, most)).map(|_| random.below(nodes)).collect();
            let edges: Vec<Vec<usize>> = (0..nodes).map(&mut leads).collect();
            let (component, reaches) = (components(&edges), reaches(&edges));
            for one in 0..nodes {
                for other in 0..nodes {
                    let joined = reaches[one][other] && reaches[other][one];
                    assert_eq!(component[one] == component[other], joined, "{one} and {other} of {edges:?}");
                }
            }
            let mut numbers = component;
            numbers.sort();
            numbers.dedup();
            assert_eq!(numbers, (0..numbers.len()).collect::<Vec<usize>>());
            sizes[numbers.len()] += 1;
        }
        assert!(sizes[1..].iter().all(|&times| times > 10), "{sizes:?}");
    }
}
