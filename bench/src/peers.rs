//! What is compared: each as one function, from what it holds to least costs.

use crate::cases::{Case, Kind, Leg};
use petgraph::algo::{bellman_ford, floyd_warshall};
use petgraph::graph::{DiGraph, NodeIndex};
use std::ops::Add;

/// Makes one call. Asked for a leg, it answers the cost that the call found for it, in half lines or in bits. One with a single source takes the
/// first leg's, and is asked for legs from there alone.
pub type Peer = Box<dyn FnMut(Option<Leg>) -> Option<i32>>;

type Route<C> = unsafe extern "C" fn(usize, *const C, usize, *const Leg, usize, *mut C, usize, *mut u8, usize) -> u32;

type Fork<C> = unsafe extern "C" fn(
    usize, *const C, usize, usize, usize, usize, *mut C, usize, *mut u8, usize, *mut usize,
) -> u32;

#[repr(C)]
struct Graph([u8; 0]);

#[rustfmt::skip]
extern "C" {
    fn hurzelma_route_delay(n: usize, cards: *const i32, cards_len: usize, legs: *const Leg, legs_len: usize,
        costs: *mut i32, costs_len: usize, chains: *mut u8, chains_len: usize) -> u32;
    fn hurzelma_route_depth(n: usize, cards: *const u8, cards_len: usize, legs: *const Leg, legs_len: usize,
        costs: *mut u8, costs_len: usize, chains: *mut u8, chains_len: usize) -> u32;
    fn hurzelma_fork_delay(n: usize, cards: *const i32, cards_len: usize, input: usize, first: usize, second: usize,
        costs: *mut i32, costs_len: usize, chains: *mut u8, chains_len: usize, split: *mut usize) -> u32;
    fn hurzelma_fork_depth(n: usize, cards: *const u8, cards_len: usize, input: usize, first: usize, second: usize,
        costs: *mut u8, costs_len: usize, chains: *mut u8, chains_len: usize, split: *mut usize) -> u32;
    fn boost_new(n: usize, from: *const i32, to: *const i32, cost: *const i32, cards: usize) -> *mut Graph;
    fn boost_floyd(graph: *const Graph, distances: *mut i32);
    fn boost_floyd_plus(graph: *const Graph, distances: *mut i32);
    fn boost_floyd_depth(graph: *const Graph, distances: *mut i32);
    fn boost_bellman(graph: *const Graph, source: usize, distances: *mut i32);
}

pub fn peer(name: &str, case: &Case) -> Peer {
    let source = case.legs[0].from;
    match (name, case.kind) {
        ("ours", Kind::Delay) => ours(case, hurzelma_route_delay, case.matrix(i32::MIN), 0, Add::add),
        ("ours", Kind::Depth) => ours(case, hurzelma_route_depth, depths(case), 255, Ord::min),
        ("fork", Kind::Delay) => fork(case, hurzelma_fork_delay, case.matrix(i32::MIN), 0, Add::add),
        ("fork", Kind::Depth) => fork(case, hurzelma_fork_depth, depths(case), 255, Ord::min),
        ("hand", Kind::Delay) => hand_floyd(case),
        ("hand", Kind::Depth) => hand_widest(case),
        ("boost", Kind::Delay) => boost(case, i32::MAX, |graph, out| unsafe { boost_floyd(graph, out) }),
        ("boost-plus", Kind::Delay) => boost(case, i32::MAX, |graph, out| unsafe { boost_floyd_plus(graph, out) }),
        ("boost", Kind::Depth) => boost(case, 0, |graph, out| unsafe { boost_floyd_depth(graph, out) }),
        ("petgraph", Kind::Delay) => petgraph_floyd(case),
        ("hand-bf", Kind::Delay) => hand_bellman(case, source),
        ("boost-bf", Kind::Delay) => {
            boost(case, i32::MAX, move |graph, out| unsafe { boost_bellman(graph, source, out) })
        }
        ("petgraph-bf", Kind::Delay) => petgraph_bellman(case, source),
        _ => panic!("{name}: no such peer for this kind"),
    }
}

fn depths(case: &Case) -> Vec<u8> {
    case.matrix(0).iter().map(|&cost| cost as u8).collect()
}

const ROW: usize = 66;

// The route call, costs and chains.
fn ours<C: Copy + Default + Into<i32> + 'static>(
    case: &Case,
    route: Route<C>,
    cards: Vec<C>,
    unit: i32,
    combine: fn(i32, i32) -> i32,
) -> Peer {
    let (n, legs) = (case.n, case.legs.clone());
    let standing = case.matrix(i32::MIN);
    let mut costs = vec![C::default(); legs.len()];
    let mut chains = vec![0; ROW * legs.len()];
    Box::new(move |asked| {
        let (out, rows) = (costs.as_mut_ptr(), chains.as_mut_ptr());
        let refused = unsafe {
            route(n, cards.as_ptr(), cards.len(), legs.as_ptr(), legs.len(), out, legs.len(), rows, chains.len())
        };
        assert_eq!(refused, 0, "the route call is refused");
        // The leg's row must hold a chain of its cost.
        let leg = asked?;
        let k = legs.iter().position(|&other| other == leg).unwrap();
        let found = chain_cost(&chains[ROW * k..][..ROW], leg, &standing, n, unit, combine);
        assert_eq!(found.unwrap_or(unit), costs[k].into(), "leg {k}: the chain's cost");
        found
    })
}

// The fork call: the total and three chains. Its input is where the first leg begins, and its outputs are where the first two end.
fn fork<C: Copy + Default + Into<i32> + 'static>(
    case: &Case,
    fork: Fork<C>,
    cards: Vec<C>,
    unit: i32,
    combine: fn(i32, i32) -> i32,
) -> Peer {
    let (n, input, outputs) = (case.n, case.legs[0].from, [case.legs[0].to, case.legs[1].to]);
    let standing = case.matrix(i32::MIN);
    let mut total = C::default();
    let mut chains = [0; 3 * ROW];
    let mut split = n;
    Box::new(move |asked| {
        let (out, rows, [first, second]) = (&mut total, chains.as_mut_ptr(), outputs);
        let refused = unsafe {
            fork(n, cards.as_ptr(), cards.len(), input, first, second, out, 1, rows, chains.len(), &mut split)
        };
        assert_eq!(refused, 0, "the fork call is refused");
        asked?;
        // The rows must hold chains by way of the split, and the total be what they cost.
        let legs = [(input, split), (split, first), (split, second)].map(|(from, to)| Leg { from, to });
        let costs = legs.iter().zip(chains.chunks_exact(ROW));
        let costs = costs.map(|(&leg, row)| chain_cost(row, leg, &standing, n, unit, combine).expect("a chain"));
        assert_eq!(costs.fold(unit, combine), total.into(), "the total");
        Some(total.into())
    })
}

// What the chain in a row costs, which must be one for the leg; none where the row has none.
fn chain_cost(
    row: &[u8],
    leg: Leg,
    standing: &[i32],
    n: usize,
    unit: i32,
    combine: fn(i32, i32) -> i32,
) -> Option<i32> {
    let (count, row) = row.split_first().unwrap();
    let (chain, rest) = row.split_at(*count as usize);
    assert!(rest.iter().all(|&byte| byte == 255), "{leg:?}: the row's rest is not 255");
    let (first, last) = (*chain.first()?, *chain.last()?);
    assert_eq!((first as usize, last as usize), (leg.from, leg.to), "{leg:?}: the chain's ends");
    let hops = chain.windows(2).map(|pair| standing[pair[0] as usize * n + pair[1] as usize]);
    assert!(hops.clone().all(|card| card != i32::MIN), "{leg:?}: the chain has a pair without a card");
    Some(hops.fold(unit, combine))
}

// No distance; sums with it do not overflow.
const NONE: i32 = i32::MAX / 2;

// Floyd-Warshall as one writes it by hand, over a flat matrix.
fn hand_floyd(case: &Case) -> Peer {
    let (n, cards) = (case.n, case.matrix(NONE));
    let mut distances = cards.clone();
    let mut row = vec![0; n];
    Box::new(move |asked| {
        distances.copy_from_slice(&cards);
        for k in 0..n {
            row.copy_from_slice(&distances[k * n..][..n]);
            for distances in distances.chunks_exact_mut(n) {
                let first = distances[k];
                if first < NONE / 2 {
                    for (distance, &second) in distances.iter_mut().zip(&row) {
                        *distance = (*distance).min(first + second);
                    }
                }
            }
        }
        asked.map(|leg| distances[leg.from * n + leg.to]).filter(|&distance| distance < NONE / 2)
    })
}

// The same for depths, where 0 is none.
fn hand_widest(case: &Case) -> Peer {
    let (n, cards) = (case.n, depths(case));
    let mut depths = cards.clone();
    let mut row = vec![0; n];
    Box::new(move |asked| {
        depths.copy_from_slice(&cards);
        for k in 0..n {
            row.copy_from_slice(&depths[k * n..][..n]);
            for depths in depths.chunks_exact_mut(n) {
                let first = depths[k];
                if first != 0 {
                    for (depth, &second) in depths.iter_mut().zip(&row) {
                        *depth = (*depth).max(first.min(second));
                    }
                }
            }
        }
        asked.map(|leg| depths[leg.from * n + leg.to].into()).filter(|&depth| depth != 0)
    })
}

fn hand_bellman(case: &Case, source: usize) -> Peer {
    let cards = case.cards.clone();
    let mut distances = vec![0; case.n];
    Box::new(move |asked| {
        distances.fill(NONE);
        distances[source] = 0;
        let mut changed = true;
        while changed {
            changed = false;
            for card in &cards {
                let first = distances[card.from];
                if first != NONE && first + card.cost < distances[card.to] {
                    distances[card.to] = first + card.cost;
                    changed = true;
                }
            }
        }
        asked.map(|leg| distances[leg.to]).filter(|&distance| distance != NONE)
    })
}

fn graph<W>(case: &Case, weight: fn(i32) -> W) -> DiGraph<(), W> {
    let mut graph = DiGraph::new();
    (0..case.n).for_each(|_| _ = graph.add_node(()));
    for card in &case.cards {
        graph.add_edge(NodeIndex::new(card.from), NodeIndex::new(card.to), weight(card.cost));
    }
    graph
}

fn petgraph_floyd(case: &Case) -> Peer {
    let graph = graph(case, i32::from);
    Box::new(move |asked| {
        let distances = floyd_warshall(&graph, |edge| *edge.weight()).unwrap();
        asked
            .map(|leg| distances[&(NodeIndex::new(leg.from), NodeIndex::new(leg.to))])
            .filter(|&distance| distance != i32::MAX)
    })
}

// It takes floating-point numbers, and keeps predecessors.
fn petgraph_bellman(case: &Case, source: usize) -> Peer {
    let graph = graph(case, f64::from);
    Box::new(move |asked| {
        let paths = bellman_ford(&graph, NodeIndex::new(source)).unwrap();
        let distance = asked.map(|leg| paths.distances[leg.to]);
        distance.filter(|distance| distance.is_finite()).map(|distance| distance as i32)
    })
}

// One of Boost Graph's algorithms. The graph stays until the program ends.
fn boost(case: &Case, none: i32, call: impl Fn(*const Graph, *mut i32) + 'static) -> Peer {
    let n = case.n;
    let [from, to, cost]: [Vec<i32>; 3] = [
        case.cards.iter().map(|card| card.from as i32).collect(),
        case.cards.iter().map(|card| card.to as i32).collect(),
        case.cards.iter().map(|card| card.cost).collect(),
    ];
    let graph = unsafe { boost_new(n, from.as_ptr(), to.as_ptr(), cost.as_ptr(), cost.len()) };
    let mut distances = vec![0; n * n];
    Box::new(move |asked| {
        call(graph, distances.as_mut_ptr());
        asked.map(|leg| distances[leg.from * n + leg.to]).filter(|&distance| distance != none)
    })
}
