//! Minimum cuts of a weighted undirected graph: their value, one of them, several light cuts, their number, a cactus of all of them, a most balanced one,
//! lists of their sides, and the fewest new edges that raise the value; and the components of a graph that is not connected.
//!
//! A graph has `n` vertices, 0 to n - 1; edge i joins `u[i]` and `v[i]` and weighs `w[i]`. Edges with the same ends count as one with
//! the sum of their weights; loops and edges of weight 0 count for nothing. All limits are checked; an [`Error`] says what is wrong.
//! The calls use proved exports of C, start no thread, and keep nothing. The place of each node in a cactus, and its sides, are
//! in [`Cactus::places`].
//!
//! ```
//! // a ring of four vertices
//! let (u, v, w) = ([0, 1, 2, 3], [1, 2, 3, 0], [1, 1, 1, 1]);
//! assert_eq!(mincut::value(4, &u, &v, &w), Ok(2));
//! assert_eq!(mincut::count(4, &u, &v, &w), Ok(6));
//! let cactus = mincut::cactus(4, &u, &v, &w).unwrap();
//! assert_eq!(cactus.cycles().count(), 1);
//! assert_eq!(mincut::value(4, &u, &v, &[1, 1]), Err(mincut::Error::BadLength));
//! ```

use std::fmt;

/// Why a call has no result. A later version may have further reasons.
#[derive(Clone, Copy, Debug, PartialEq, Eq)]
#[non_exhaustive]
pub enum Error {
    /// n is 0 or 1.
    NoCut,
    /// Out of memory.
    OutOfMemory,
    /// The slices of the edges differ in length, or there are masses and not as many as vertices.
    BadLength,
    /// n is above 4,194,304.
    TooManyVertices,
    /// There are more than 16,777,216 edges.
    TooManyEdges,
    /// An end of an edge, or a vertex of a pair, is n or more.
    BadVertex,
    /// The weights of all edges but loops add up to more than 2^61.
    WeightSum,
    /// The graph is not connected.
    Disconnected,
    /// The masses add up to 2^64 or more.
    MassSum,
    /// n times the number of sides, which is given here, is above 2^30.
    TooManySides(u64),
    /// The library returned a status that this crate does not know: it is of another version.
    Unknown(u32),
}

impl fmt::Display for Error {
    fn fmt(&self, f: &mut fmt::Formatter<'_>) -> fmt::Result {
        f.write_str(match self {
            Error::TooManySides(sides) => return write!(f, "a list of {sides} sides is too large"),
            Error::Unknown(status) => return write!(f, "the status {status} is unknown"),
            Error::MassSum => "the masses add up to 2^64 or more",
            Error::NoCut => "the graph has fewer than two vertices",
            Error::OutOfMemory => "out of memory",
            Error::BadLength => "the slices differ in length",
            Error::TooManyVertices => "too many vertices",
            Error::TooManyEdges => "too many edges",
            Error::BadVertex => "an end of an edge, or a vertex of a pair, is no vertex",
            Error::WeightSum => "the weights add up to more than 2^61",
            Error::Disconnected => "the graph is not connected",
        })
    }
}

impl std::error::Error for Error {}

fn told(status: u32) -> Result<(), Error> {
    Err(match status {
        0 => return Ok(()),
        1 => Error::NoCut,
        2 => Error::OutOfMemory,
        3 => Error::BadLength,
        4 => Error::TooManyVertices,
        5 => Error::TooManyEdges,
        6 => Error::BadVertex,
        7 => Error::WeightSum,
        8 => Error::Disconnected,
        10 => Error::MassSum,
        unknown => Error::Unknown(unknown),
    })
}

/// A bridge of a cactus between two nodes; the lower one is further from node 0.
#[repr(C)]
#[derive(Clone, Copy, Debug, Default, PartialEq, Eq)]
pub struct Bridge {
    pub upper: u64,
    pub lower: u64,
}

#[repr(C)]
#[derive(Default)]
struct Sizes {
    value: u64,
    nodes: usize,
    vertices: usize,
    bridges: usize,
    cycles: usize,
    members: usize,
}

/// The canonical cactus of all minimum cuts of a connected graph. Each of its cycles has four or more nodes.
///
/// Taking away one bridge, or two edges of one cycle, leaves some nodes without a way to node 0, which has vertex 0: their
/// vertices are one side of a minimum cut, and each minimum cut is one of these.
#[derive(Clone, Debug)]
pub struct Cactus {
    value: u64,
    node_starts: Vec<usize>,
    vertices: Vec<u32>,
    bridges: Vec<Bridge>,
    cycle_starts: Vec<usize>,
    members: Vec<u64>,
}

fn lists<'a, T>(starts: &'a [usize], items: &'a [T]) -> impl ExactSizeIterator<Item = &'a [T]> {
    (0..starts.len()).map(move |i| &items[starts[i]..starts.get(i + 1).copied().unwrap_or(items.len())])
}

impl Cactus {
    /// The value of the graph.
    pub fn value(&self) -> u64 {
        self.value
    }

    /// The vertices of each node; they ascend, and there may be none.
    pub fn nodes(&self) -> impl ExactSizeIterator<Item = &[u32]> {
        lists(&self.node_starts, &self.vertices)
    }

    pub fn bridges(&self) -> &[Bridge] {
        &self.bridges
    }

    /// The nodes of each cycle in its order; the last is joined to the first.
    pub fn cycles(&self) -> impl ExactSizeIterator<Item = &[u64]> {
        lists(&self.cycle_starts, &self.members)
    }

    /// Where each node hangs, and the sides of the minimum cuts, borrowed.
    ///
    /// ```
    /// // a path of three vertices: vertex 0 with a bridge to vertex 1, and that with one to vertex 2
    /// let cactus = mincut::cactus(3, &[0, 1], &[1, 2], &[1, 1]).unwrap();
    /// let places = cactus.places();
    /// assert_eq!(places.of_node(2).upper, 1);
    /// assert_eq!(places.bridge_side(0), [1, 2]);
    /// assert_eq!(places.bridge_side(1), [2]);
    /// ```
    pub fn places(&self) -> Places<'_> {
        let sizes = Sizes {
            value: self.value,
            nodes: self.node_starts.len(),
            vertices: self.vertices.len(),
            bridges: self.bridges.len(),
            cycles: self.cycle_starts.len(),
            members: self.members.len(),
        };
        let mut places = vec![Place::default(); sizes.nodes];
        // SAFETY: the vectors are those that the library filled, cut to the sizes that it reported; there is a place for each node.
        unsafe {
            mincut_places(
                &sizes, self.node_starts.as_ptr(), self.bridges.as_ptr(), self.cycle_starts.as_ptr(), self.members.as_ptr(),
                places.as_mut_ptr(),
            )
        };
        Places { cactus: self, places }
    }

    /// The node of each vertex.
    pub fn node_of(&self) -> Vec<usize> {
        let mut found = vec![0; self.vertices.len()];
        for (i, node) in self.nodes().enumerate() {
            for v in node {
                found[*v as usize] = i;
            }
        }
        found
    }
}

/// Where a node of a cactus hangs, and which vertices hang at it. Of node 0 the first three are 0.
#[repr(C)]
#[derive(Clone, Copy, Debug, Default, PartialEq, Eq)]
pub struct Place {
    /// The node above it: the upper end of its bridge, or the first node of its cycle.
    pub upper: u64,
    /// The number of its bridge if `position` is 0, and otherwise of its cycle.
    pub block: usize,
    /// 0 for the lower end of a bridge, and else its place in the cycle, from 1.
    pub position: usize,
    first: usize,
    end: usize,
}

/// The places of the nodes of a cactus, by which each side of a minimum cut is a slice of its vertices.
#[derive(Clone, Debug)]
pub struct Places<'a> {
    cactus: &'a Cactus,
    places: Vec<Place>,
}

impl Places<'_> {
    pub fn of_node(&self, node: usize) -> &Place {
        &self.places[node]
    }

    /// The vertices of a node and of all nodes below it: for each node but 0 one side of a minimum cut.
    pub fn below(&self, node: usize) -> &[u32] {
        &self.cactus.vertices[self.places[node].first..self.places[node].end]
    }

    /// The side of the minimum cut by a bridge.
    pub fn bridge_side(&self, bridge: usize) -> &[u32] {
        self.below(self.cactus.bridges[bridge].lower as usize)
    }

    /// The side of the minimum cut by the edges `i` and `j` of a cycle, `i` below `j`: edge i joins its nodes i and i + 1, the last its
    /// last node and its first. It panics if the cycle has no such edges.
    pub fn cycle_side(&self, cycle: usize, i: usize, j: usize) -> &[u32] {
        let nodes = self.cactus.cycles().nth(cycle).expect("a cycle of this number");
        assert!(i < j, "the first edge comes before the second");
        &self.cactus.vertices[self.places[nodes[i + 1] as usize].first..self.places[nodes[j] as usize].end]
    }
}

#[repr(C)]
#[derive(Default)]
struct Balance {
    value: u64,
    balance: u64,
}

#[repr(C)]
#[derive(Default)]
struct Listing {
    value: u64,
    sides: u64,
}

/// Sides of minimum cuts, in the order of the lists of their vertices.
#[derive(Clone, Debug, PartialEq, Eq)]
pub struct Sides {
    value: u64,
    n: usize,
    bytes: Vec<u8>,
}

impl Sides {
    /// The value of the graph.
    pub fn value(&self) -> u64 {
        self.value
    }

    /// For each side a byte for each vertex: 0 for vertex 0 and all on its side, 1 for the others.
    pub fn rows(&self) -> impl ExactSizeIterator<Item = &[u8]> {
        self.bytes.chunks_exact(self.n)
    }

    /// The vertices of each side, which ascend; vertex 0 is in none.
    pub fn lists(&self) -> impl ExactSizeIterator<Item = Vec<u32>> + '_ {
        self.rows().map(|row| (0..).zip(row).filter(|(_, byte)| **byte == 1).map(|(v, _)| v).collect())
    }
}

#[repr(C)]
#[derive(Default)]
struct Raise {
    value: u64,
    edges: usize,
    sets: usize,
}

/// The fewest edges of weight 1 that raise the value, and the sets that show that fewer do not.
#[derive(Clone, Debug, PartialEq, Eq)]
pub struct Augmentation {
    /// The value of the graph.
    pub value: u64,
    /// The two ends of each edge, the smaller first.
    pub edges: Vec<(u32, u32)>,
    /// For each vertex the number of its set, from 1, or 0 if it is in none. Each set is one side of a minimum cut.
    pub set_of: Vec<u64>,
}

/// The components of a graph, numbered from 0 in the order of their least vertices.
#[derive(Clone, Debug, PartialEq, Eq)]
pub struct Components {
    /// How many they are.
    pub count: u32,
    /// For each vertex the number of its component.
    pub component_of: Vec<u32>,
}

/// Lists sides by a call that takes a room: first by a small one, since the call reports how many there are.
fn listed(n: u32, mut call: impl FnMut(&mut Listing, &mut [u8]) -> u32) -> Result<Sides, Error> {
    let mut listing = Listing::default();
    let mut bytes = vec![0; 1 << 16];
    let mut status = call(&mut listing, &mut bytes);
    if status == 9 {
        bytes = vec![0; listing.sides as usize * n as usize];
        status = call(&mut listing, &mut bytes);
    }
    if status == 11 {
        return Err(Error::TooManySides(listing.sides));
    }
    told(status)?;
    bytes.truncate(listing.sides as usize * n as usize);
    Ok(Sides { value: listing.value, n: n as usize, bytes })
}

/// A minimum cut.
#[derive(Clone, Debug, PartialEq, Eq)]
pub struct Cut {
    /// The value of the graph.
    pub value: u64,
    /// For each vertex whether it is on the side without vertex 0.
    pub in_side: Vec<bool>,
}

/// A cut that weighs less than a bound.
#[derive(Clone, Debug, PartialEq, Eq)]
pub struct LightCut {
    /// What the edges between its sides weigh.
    pub weight: u64,
    /// For each vertex whether it is on the side without vertex 0.
    pub in_side: Vec<bool>,
}

/// The length of an array for all vertices; 0 above the limit, since such a graph is refused whatever the room.
fn room_of(n: u32) -> usize {
    if n > 4_194_304 { 0 } else { n as usize }
}

/// A side as bools, given by a byte for each vertex.
fn bools(bytes: &[u8]) -> Vec<bool> {
    bytes.iter().map(|byte| *byte == 1).collect()
}

/// A minimum cut, and how evenly it divides the vertices.
#[derive(Clone, Debug, PartialEq, Eq)]
pub struct Balanced {
    /// The value of the graph.
    pub value: u64,
    /// The smaller of the masses of the two sides.
    pub balance: u64,
    /// For each vertex whether it is on the side without vertex 0.
    pub in_side: Vec<bool>,
}

extern "C" {
    fn mincut_places(
        sizes: *const Sizes, node_starts: *const usize, bridges: *const Bridge, cycle_starts: *const usize, members: *const u64,
        places: *mut Place,
    );
    fn mincut_raw_balanced(
        n: u32, u: *const u32, u_len: usize, v: *const u32, v_len: usize, w: *const u64, w_len: usize,
        mass: *const u64, mass_len: usize, balance: *mut Balance, in_side: *mut u8, in_side_len: usize,
    ) -> u32;
    fn mincut_raw_sides(
        n: u32, u: *const u32, u_len: usize, v: *const u32, v_len: usize, w: *const u64, w_len: usize,
        mass: *const u64, mass_len: usize, least: u64, listing: *mut Listing, in_side: *mut u8, in_side_len: usize,
    ) -> u32;
    fn mincut_raw_sides_between(
        n: u32, u: *const u32, u_len: usize, v: *const u32, v_len: usize, w: *const u64, w_len: usize,
        a: u32, b: u32, listing: *mut Listing, in_side: *mut u8, in_side_len: usize,
    ) -> u32;
    fn mincut_raw_augment(
        n: u32, u: *const u32, u_len: usize, v: *const u32, v_len: usize, w: *const u64, w_len: usize, raise: *mut Raise,
        from: *mut u32, from_len: usize, to: *mut u32, to_len: usize, set_of: *mut u64, set_of_len: usize,
    ) -> u32;
    fn mincut_raw_value(
        n: u32, u: *const u32, u_len: usize, v: *const u32, v_len: usize, w: *const u64, w_len: usize, value: *mut u64,
    ) -> u32;
    fn mincut_raw_value_below(
        n: u32, u: *const u32, u_len: usize, v: *const u32, v_len: usize, w: *const u64, w_len: usize, bound: u64, value: *mut u64,
    ) -> u32;
    fn mincut_raw_cut(
        n: u32, u: *const u32, u_len: usize, v: *const u32, v_len: usize, w: *const u64, w_len: usize, value: *mut u64,
        in_side: *mut u8, in_side_len: usize,
    ) -> u32;
    fn mincut_raw_cut_below(
        n: u32, u: *const u32, u_len: usize, v: *const u32, v_len: usize, w: *const u64, w_len: usize, bound: u64, value: *mut u64,
        in_side: *mut u8, in_side_len: usize,
    ) -> u32;
    fn mincut_raw_cuts_below(
        n: u32, u: *const u32, u_len: usize, v: *const u32, v_len: usize, w: *const u64, w_len: usize, bound: u64, count: *mut u64,
        weight: *mut u64, weight_len: usize, in_side: *mut u8, in_side_len: usize,
    ) -> u32;
    fn mincut_raw_count(
        n: u32, u: *const u32, u_len: usize, v: *const u32, v_len: usize, w: *const u64, w_len: usize, count: *mut u64,
    ) -> u32;
    fn mincut_raw_components(
        n: u32, u: *const u32, u_len: usize, v: *const u32, v_len: usize, w: *const u64, w_len: usize, count: *mut u32,
        component_of: *mut u32, component_of_len: usize,
    ) -> u32;
    fn mincut_raw_cactus(
        n: u32, u: *const u32, u_len: usize, v: *const u32, v_len: usize, w: *const u64, w_len: usize, sizes: *mut Sizes,
        node_starts: *mut usize, node_starts_len: usize, vertices: *mut u32, vertices_len: usize,
        bridges: *mut Bridge, bridges_len: usize, cycle_starts: *mut usize, cycle_starts_len: usize,
        members: *mut u64, members_len: usize,
    ) -> u32;
}

/// The least weight of a cut; 0 if the graph is not connected.
pub fn value(n: u32, u: &[u32], v: &[u32], w: &[u64]) -> Result<u64, Error> {
    let mut least = 0;
    // SAFETY: the slices are borrowed for the call, and the export checks all that they say.
    let status = unsafe { mincut_raw_value(n, u.as_ptr(), u.len(), v.as_ptr(), v.len(), w.as_ptr(), w.len(), &mut least) };
    told(status).map(|()| least)
}

/// The smaller of the bound and the value, to separate constraints.
///
/// ```
/// assert_eq!(mincut::value_below(3, &[0, 1, 2], &[1, 2, 0], &[1, 1, 1], 1), Ok(1));
/// ```
pub fn value_below(n: u32, u: &[u32], v: &[u32], w: &[u64], bound: u64) -> Result<u64, Error> {
    let mut least = 0;
    // SAFETY: as above.
    let status =
        unsafe { mincut_raw_value_below(n, u.as_ptr(), u.len(), v.as_ptr(), v.len(), w.as_ptr(), w.len(), bound, &mut least) };
    told(status).map(|()| least)
}

/// One minimum cut, at about the price of the value; which of several is free. The graph need not be connected: then the value is 0, and
/// the vertices in the side are one or more whole components.
///
/// ```
/// // a path of three vertices with weights 2 and 1
/// let found = mincut::cut(3, &[0, 1], &[1, 2], &[2, 1]).unwrap();
/// assert_eq!((found.value, found.in_side), (1, vec![false, false, true]));
/// ```
pub fn cut(n: u32, u: &[u32], v: &[u32], w: &[u64]) -> Result<Cut, Error> {
    let mut bytes = vec![0u8; room_of(n)];
    let mut least = 0;
    // SAFETY: as above.
    let status = unsafe {
        mincut_raw_cut(
            n, u.as_ptr(), u.len(), v.as_ptr(), v.len(), w.as_ptr(), w.len(), &mut least, bytes.as_mut_ptr(), bytes.len(),
        )
    };
    told(status).map(|()| Cut { value: least, in_side: bools(&bytes) })
}

/// The same if the value is below the bound, or `None`: then no cut weighs less than the bound.
///
/// ```
/// assert_eq!(mincut::cut_below(3, &[0, 1], &[1, 2], &[2, 1], 1), Ok(None));
/// assert_eq!(mincut::cut_below(3, &[0, 1], &[1, 2], &[2, 1], 2).unwrap().unwrap().value, 1);
/// ```
pub fn cut_below(n: u32, u: &[u32], v: &[u32], w: &[u64], bound: u64) -> Result<Option<Cut>, Error> {
    let mut bytes = vec![0u8; room_of(n)];
    let mut least = 0;
    // SAFETY: as above.
    let status = unsafe {
        mincut_raw_cut_below(
            n, u.as_ptr(), u.len(), v.as_ptr(), v.len(), w.as_ptr(), w.len(), bound, &mut least, bytes.as_mut_ptr(), bytes.len(),
        )
    };
    told(status).map(|()| (least < bound).then(|| Cut { value: least, in_side: bools(&bytes) }))
}

/// Cuts that weigh less than the bound, at most so many and no two the same, and a minimum cut first; which others is free. There are
/// none only if no cut weighs less or `most` is 0. The graph need not be connected.
///
/// ```
/// // a path of three vertices with weights 2 and 1
/// let found = mincut::cuts_below(3, &[0, 1], &[1, 2], &[2, 1], 3, 9).unwrap();
/// assert_eq!((found.len(), found[0].weight, &found[0].in_side[..]), (2, 1, &[false, false, true][..]));
/// assert_eq!((found[1].weight, &found[1].in_side[..]), (2, &[false, true, true][..]));
/// ```
pub fn cuts_below(n: u32, u: &[u32], v: &[u32], w: &[u64], bound: u64, most: usize) -> Result<Vec<LightCut>, Error> {
    // there are fewer cuts than vertices
    let rows = most.min(room_of(n));
    let (mut weights, mut bytes) = (vec![0u64; rows], vec![0u8; rows * room_of(n)]);
    let mut count = 0;
    // SAFETY: as above; the outputs are different vectors.
    let status = unsafe {
        mincut_raw_cuts_below(
            n, u.as_ptr(), u.len(), v.as_ptr(), v.len(), w.as_ptr(), w.len(), bound, &mut count, weights.as_mut_ptr(), weights.len(),
            bytes.as_mut_ptr(), bytes.len(),
        )
    };
    told(status)?;
    let sides = bytes.chunks(room_of(n).max(1)).map(bools);
    Ok(weights.iter().zip(sides).take(count as usize).map(|(weight, in_side)| LightCut { weight: *weight, in_side }).collect())
}

/// The number of all minimum cuts of a connected graph.
pub fn count(n: u32, u: &[u32], v: &[u32], w: &[u64]) -> Result<u64, Error> {
    let mut number = 0;
    // SAFETY: as above.
    let status = unsafe { mincut_raw_count(n, u.as_ptr(), u.len(), v.as_ptr(), v.len(), w.as_ptr(), w.len(), &mut number) };
    told(status).map(|()| number)
}

/// The components of a graph, connected or not, of any number of vertices. Edges of weight 0 join none.
///
/// ```
/// let found = mincut::components(5, &[0, 1, 2], &[3, 2, 1], &[1, 0, 7]).unwrap();
/// assert_eq!((found.count, found.component_of), (3, vec![0, 1, 1, 0, 2]));
/// ```
pub fn components(n: u32, u: &[u32], v: &[u32], w: &[u64]) -> Result<Components, Error> {
    let mut component_of = vec![0; room_of(n)];
    let mut count = 0;
    // SAFETY: as above.
    let status = unsafe {
        mincut_raw_components(
            n, u.as_ptr(), u.len(), v.as_ptr(), v.len(), w.as_ptr(), w.len(), &mut count, component_of.as_mut_ptr(), component_of.len(),
        )
    };
    told(status).map(|()| Components { count, component_of })
}

/// A cactus of all minimum cuts of a connected graph.
pub fn cactus(n: u32, u: &[u32], v: &[u32], w: &[u64]) -> Result<Cactus, Error> {
    let room = room_of(n);
    let mut sizes = Sizes::default();
    let mut node_starts = vec![0; 2 * room];
    let mut vertices = vec![0; room];
    let mut bridges = vec![Bridge::default(); 2 * room];
    let mut cycle_starts = vec![0; room];
    let mut members = vec![0; 3 * room];
    // SAFETY: as above; the outputs are different vectors, and their lengths are passed.
    let status = unsafe {
        mincut_raw_cactus(
            n, u.as_ptr(), u.len(), v.as_ptr(), v.len(), w.as_ptr(), w.len(), &mut sizes,
            node_starts.as_mut_ptr(), node_starts.len(), vertices.as_mut_ptr(), vertices.len(),
            bridges.as_mut_ptr(), bridges.len(), cycle_starts.as_mut_ptr(), cycle_starts.len(),
            members.as_mut_ptr(), members.len(),
        )
    };
    told(status)?;
    node_starts.truncate(sizes.nodes);
    vertices.truncate(sizes.vertices);
    bridges.truncate(sizes.bridges);
    cycle_starts.truncate(sizes.cycles);
    members.truncate(sizes.members);
    Ok(Cactus { value: sizes.value, node_starts, vertices, bridges, cycle_starts, members })
}

/// A minimum cut of a connected graph than which none has a greater balance; which of several such cuts is free. `masses` has n
/// entries, or none, for a mass of 1 each.
///
/// ```
/// // a path of four vertices with weights 1, 1, 1
/// let found = mincut::balanced(4, &[0, 1, 2], &[1, 2, 3], &[1, 1, 1], &[]).unwrap();
/// assert_eq!((found.value, found.balance), (1, 2));
/// assert_eq!(found.in_side, [false, false, true, true]);
/// assert_eq!(mincut::balanced(4, &[0, 1, 2], &[1, 2, 3], &[1, 1, 1], &[5, 1, 1, 1]).unwrap().balance, 3);
/// ```
pub fn balanced(n: u32, u: &[u32], v: &[u32], w: &[u64], masses: &[u64]) -> Result<Balanced, Error> {
    let mut bytes = vec![0u8; room_of(n)];
    let mut told = Balance::default();
    // SAFETY: as above.
    let status = unsafe {
        mincut_raw_balanced(
            n, u.as_ptr(), u.len(), v.as_ptr(), v.len(), w.as_ptr(), w.len(), masses.as_ptr(), masses.len(), &mut told,
            bytes.as_mut_ptr(), bytes.len(),
        )
    };
    self::told(status)?;
    Ok(Balanced { value: told.value, balance: told.balance, in_side: bools(&bytes) })
}

/// All minimum cuts of a connected graph, by their sides.
///
/// ```
/// // a path of four vertices with weights 1, 2, 1
/// let sides = mincut::sides(4, &[0, 1, 2], &[1, 2, 3], &[1, 2, 1]).unwrap();
/// assert_eq!(sides.value(), 1);
/// assert_eq!(sides.lists().collect::<Vec<_>>(), [vec![1, 2, 3], vec![3]]);
/// ```
pub fn sides(n: u32, u: &[u32], v: &[u32], w: &[u64]) -> Result<Sides, Error> {
    sides_balanced(n, u, v, w, &[], 0)
}

/// The minimum cuts of a connected graph whose balance, the smaller of the masses of their two sides, is `least` or more. `masses` has
/// n entries, or none, for a mass of 1 each.
///
/// ```
/// let sides = mincut::sides_balanced(4, &[0, 1, 2], &[1, 2, 3], &[1, 1, 1], &[], 2).unwrap();
/// assert_eq!(sides.rows().collect::<Vec<_>>(), [[0, 0, 1, 1]]);
/// ```
pub fn sides_balanced(n: u32, u: &[u32], v: &[u32], w: &[u64], masses: &[u64], least: u64) -> Result<Sides, Error> {
    listed(n, |listing, bytes| {
        // SAFETY: the slices are borrowed for the call, and the export checks all that they say.
        unsafe {
            mincut_raw_sides(
                n, u.as_ptr(), u.len(), v.as_ptr(), v.len(), w.as_ptr(), w.len(), masses.as_ptr(), masses.len(), least, listing,
                bytes.as_mut_ptr(), bytes.len(),
            )
        }
    })
}

/// The minimum cuts of a connected graph that separate two vertices; none if they are the same vertex.
///
/// ```
/// let sides = mincut::sides_between(4, &[0, 1, 2], &[1, 2, 3], &[1, 1, 1], 1, 2).unwrap();
/// assert_eq!(sides.lists().collect::<Vec<_>>(), [[2, 3]]);
/// ```
pub fn sides_between(n: u32, u: &[u32], v: &[u32], w: &[u64], a: u32, b: u32) -> Result<Sides, Error> {
    listed(n, |listing, bytes| {
        // SAFETY: as above.
        unsafe {
            mincut_raw_sides_between(
                n, u.as_ptr(), u.len(), v.as_ptr(), v.len(), w.as_ptr(), w.len(), a, b, listing, bytes.as_mut_ptr(), bytes.len(),
            )
        }
    })
}

/// The fewest edges of weight 1 that raise the value of a connected graph.
///
/// ```
/// // a path of three vertices
/// let found = mincut::augment(3, &[0, 1], &[1, 2], &[1, 1]).unwrap();
/// assert_eq!((found.value, found.edges), (1, vec![(0, 2)]));
/// assert_eq!(found.set_of, [1, 0, 2]);
/// ```
pub fn augment(n: u32, u: &[u32], v: &[u32], w: &[u64]) -> Result<Augmentation, Error> {
    let room = room_of(n);
    let (mut from, mut to, mut set_of, mut raise) = (vec![0; room], vec![0; room], vec![0; room], Raise::default());
    // SAFETY: as above; the outputs are different vectors.
    let status = unsafe {
        mincut_raw_augment(
            n, u.as_ptr(), u.len(), v.as_ptr(), v.len(), w.as_ptr(), w.len(), &mut raise, from.as_mut_ptr(), from.len(),
            to.as_mut_ptr(), to.len(), set_of.as_mut_ptr(), set_of.len(),
        )
    };
    told(status)?;
    Ok(Augmentation { value: raise.value, edges: from.into_iter().zip(to).take(raise.edges).collect(), set_of })
}
