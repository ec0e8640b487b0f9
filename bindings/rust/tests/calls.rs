use mincut::{balanced, cactus, components, count, cut, cut_below, cuts_below, sides, sides_balanced, sides_between, value, Error};

#[test]
fn each_fault_is_told() {
    assert_eq!(value(0, &[], &[], &[]), Err(Error::NoCut));
    assert_eq!(value(1, &[], &[], &[]), Err(Error::NoCut));
    assert_eq!(value(2, &[0], &[], &[1]), Err(Error::BadLength));
    assert_eq!(value(4_194_305, &[], &[], &[]), Err(Error::TooManyVertices));
    assert_eq!(cactus(u32::MAX, &[], &[], &[]).unwrap_err(), Error::TooManyVertices);
    assert_eq!(value(2, &[0], &[2], &[1]), Err(Error::BadVertex));
    assert_eq!(value(2, &[0, 0], &[1, 1], &[1 << 61, 1]), Err(Error::WeightSum));
    assert_eq!(cut(1, &[], &[], &[]), Err(Error::NoCut));
    assert_eq!(cut(u32::MAX, &[], &[], &[]), Err(Error::TooManyVertices));
    assert_eq!(cut_below(2, &[0], &[2], &[1], 5), Err(Error::BadVertex));
    assert_eq!(cuts_below(1, &[], &[], &[], 5, 3), Err(Error::NoCut));
    assert_eq!(cuts_below(u32::MAX, &[], &[], &[], 5, 3), Err(Error::TooManyVertices));
    assert_eq!(cuts_below(2, &[0], &[2], &[1], 5, 3), Err(Error::BadVertex));
    assert_eq!(count(2, &[], &[], &[]), Err(Error::Disconnected));
    assert_eq!(balanced(2, &[0], &[1], &[1], &[1]), Err(Error::BadLength));
    assert_eq!(balanced(2, &[0], &[1], &[1], &[u64::MAX, 1]), Err(Error::MassSum));
    assert_eq!(balanced(u32::MAX, &[], &[], &[], &[]), Err(Error::TooManyVertices));
    assert_eq!(balanced(2, &[], &[], &[], &[]), Err(Error::Disconnected));
    assert_eq!(sides(2, &[], &[], &[]), Err(Error::Disconnected));
    assert_eq!(sides_between(2, &[0], &[1], &[1], 0, 2), Err(Error::BadVertex));
    assert_eq!(sides_balanced(2, &[0], &[1], &[1], &[1], 0), Err(Error::BadLength));
}

#[test]
fn one_cut_has_a_side() {
    // two triangles, joined by an edge
    let (u, v, w) = ([0, 1, 2, 3, 4, 5, 2], [1, 2, 0, 4, 5, 3, 3], [2, 2, 2, 2, 2, 2, 1]);
    let found = cut(6, &u, &v, &w).unwrap();
    assert_eq!((found.value, &found.in_side[..]), (1, &[false, false, false, true, true, true][..]));
    assert_eq!(cut_below(6, &u, &v, &w, 2), Ok(Some(found)));
    assert_eq!(cut_below(6, &u, &v, &w, 1), Ok(None));
    assert_eq!(cut_below(6, &u, &v, &w, 0), Ok(None));
    // without that edge the other triangle is a component
    let apart = cut(6, &u[..6], &v[..6], &w[..6]).unwrap();
    assert_eq!((apart.value, &apart.in_side[..]), (0, &[false, false, false, true, true, true][..]));
    assert_eq!(cut_below(6, &u[..6], &v[..6], &w[..6], u64::MAX), Ok(Some(apart)));
}

#[test]
fn light_cuts_differ() {
    // a ring of four vertices: six minimum cuts, and one that parts opposite vertices from each other
    let (u, v, w) = ([0, 1, 2, 3], [1, 2, 3, 0], [1, 1, 1, 1]);
    let found = cuts_below(4, &u, &v, &w, 3, 9).unwrap();
    assert_eq!(found.len(), 3);
    for (k, cut) in found.iter().enumerate() {
        let weight = (0..4).filter(|i| cut.in_side[u[*i] as usize] != cut.in_side[v[*i] as usize]).count() as u64;
        assert_eq!((cut.weight, weight, cut.in_side[0]), (2, 2, false));
        assert!(found[..k].iter().all(|other| other.in_side != cut.in_side));
    }
    assert_eq!(cuts_below(4, &u, &v, &w, 2, 9), Ok(vec![]));
    assert_eq!(cuts_below(4, &u, &v, &w, 3, 0), Ok(vec![]));
    assert_eq!(cuts_below(4, &u, &v, &w, 3, 1).unwrap().len(), 1);
    // with one edge lighter the minimum cut comes first, whatever the room
    for most in 1..4 {
        let uneven = cuts_below(4, &u, &v, &[5, 4, 5, 1], 20, most).unwrap();
        assert_eq!((uneven.len(), uneven[0].weight, &uneven[0].in_side[..]), (most, 5, &[false, false, true, true][..]));
    }
}

#[test]
fn components_are_of_any_graph() {
    assert_eq!(components(0, &[], &[], &[]).unwrap().count, 0);
    assert_eq!(components(1, &[0], &[0], &[5]).unwrap().component_of, [0]);
    assert_eq!(components(2, &[0], &[1], &[0]).unwrap().component_of, [0, 1]);
    assert_eq!(components(4, &[3, 1], &[1, 3], &[1, 1]).unwrap().component_of, [0, 1, 2, 1]);
    assert_eq!(components(2, &[0], &[2], &[1]), Err(Error::BadVertex));
    assert_eq!(components(u32::MAX, &[], &[], &[]), Err(Error::TooManyVertices));
    assert_eq!(components(2, &[0, 0], &[1, 1], &[1 << 61, 1]), Err(Error::WeightSum));
}

#[test]
fn sides_of_a_ring_are_listed() {
    let n = 130;
    let (u, v, w): (Vec<u32>, Vec<u32>, Vec<u64>) = ((0..n).collect(), (1..n).chain([0]).collect(), vec![1; n as usize]);
    let all: Vec<_> = sides(n, &u, &v, &w).unwrap().lists().collect();
    assert_eq!(all.len(), 130 * 129 / 2);
    assert!(all.windows(2).all(|pair| pair[0] < pair[1]));
    assert_eq!(sides_balanced(n, &u, &v, &w, &[], 65).unwrap().rows().count(), 65);
    assert_eq!(sides_between(n, &u, &v, &w, 5, 5).unwrap().rows().count(), 0);
    assert!(sides_between(n, &u, &v, &w, 0, 70).unwrap().lists().all(|side| side.contains(&70)));
}

#[test]
fn a_list_that_is_too_large_is_told_by_its_number() {
    let n = 2000;
    let (u, v, w): (Vec<u32>, Vec<u32>, Vec<u64>) = ((0..n).collect(), (1..n).chain([0]).collect(), vec![1; n as usize]);
    assert_eq!(sides(n, &u, &v, &w), Err(Error::TooManySides(1_999_000)));
}

#[test]
fn a_star_has_bridges() {
    let found = cactus(4, &[0, 0, 0], &[1, 2, 3], &[1, 1, 2]).unwrap();
    assert_eq!(found.value(), 1);
    assert_eq!(found.bridges().len(), 2);
    let nodes = found.node_of();
    assert_eq!(nodes[0], nodes[3]);
    assert_ne!(nodes[1], nodes[2]);
}

#[test]
fn sides_are_slices_of_the_vertices() {
    // a ring of four vertices, with a fifth that hangs at vertex 2
    let found = cactus(5, &[0, 1, 2, 3, 2], &[1, 2, 3, 0, 4], &[1, 1, 1, 1, 2]).unwrap();
    let (places, nodes) = (found.places(), found.node_of());
    let sorted = |side: &[u32]| {
        let mut side = side.to_vec();
        side.sort_unstable();
        side
    };
    let mut told = vec![sorted(places.bridge_side(0))];
    for (i, j) in [(0, 1), (0, 2), (0, 3), (1, 2), (1, 3), (2, 3)] {
        told.push(sorted(places.cycle_side(0, i, j)));
    }
    told.sort();
    assert_eq!(told, sides(5, &[0, 1, 2, 3, 2], &[1, 2, 3, 0, 4], &[1, 1, 1, 1, 2]).unwrap().lists().collect::<Vec<_>>());
    assert_eq!((places.of_node(nodes[4]).upper, places.of_node(nodes[4]).position), (nodes[2] as u64, 0));
    assert_eq!(places.below(0).len(), 5);
}

#[test]
fn a_ring_is_halved() {
    let n = 130;
    let (u, v, w): (Vec<u32>, Vec<u32>, Vec<u64>) = ((0..n).collect(), (1..n).chain([0]).collect(), vec![1; n as usize]);
    let found = balanced(n, &u, &v, &w, &[]).unwrap();
    assert_eq!((found.value, found.balance, found.in_side[0]), (2, 65, false));
    assert_eq!(found.in_side.iter().filter(|inside| **inside).count(), 65);
}
