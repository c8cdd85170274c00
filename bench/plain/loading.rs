//! Loads the vehicles of the tables of the current folder over their least free-flow routes, as
//! bench/programs/loading.txt does: 1,200 steps of six seconds, point queues. Prints the
//! nanoseconds of the loading, and what comes out.
//!
//! Tables have whole numbers, and identifiers of nodes and links that count from 1.

use std::cmp::Reverse;
use std::collections::{BinaryHeap, HashMap};
use std::time::Instant;

const SECONDS_OF_A_STEP: u64 = 6;
const HORIZON: u32 = 1200;
const PERIOD: usize = 600;
const PARTS_OF_A_VEHICLE: u64 = 3_600_000_000;
const NOBODY: u32 = u32::MAX;
const FAR: u32 = u32::MAX;

struct Link {
    from: u32,
    to: u32,
    free: u32,
    parts_of_a_step: u64,
}

// The links into each node, or out of it, one node after the other.
struct ByNode {
    starts: Vec<usize>,
    links: Vec<u32>,
}

impl ByNode {
    fn new(nodes: usize, links: &[Link], node_of: impl Fn(&Link) -> u32) -> ByNode {
        let mut starts = vec![0; nodes + 1];
        for link in links {
            starts[node_of(link) as usize + 1] += 1;
        }
        for node in 0..nodes {
            starts[node + 1] += starts[node];
        }
        let mut ends = starts.clone();
        let mut all = vec![0; links.len()];
        for (l, link) in links.iter().enumerate() {
            let end = &mut ends[node_of(link) as usize];
            all[*end] = l as u32;
            *end += 1;
        }
        ByNode { starts, links: all }
    }

    fn at(&self, node: usize) -> &[u32] {
        &self.links[self.starts[node]..self.starts[node + 1]]
    }
}

struct Net {
    zones: Vec<usize>,
    links: Vec<Link>,
    ins: ByNode,
    outs: ByNode,
}

struct Trip {
    origin: usize,
    destination: usize,
    departure: u32,
}

// The rows of a table below its header, as numbers; an empty field is 0.
fn rows(file: &str) -> Vec<Vec<u64>> {
    let text = std::fs::read_to_string(file).unwrap();
    let number = |field: &str| if field.is_empty() { 0 } else { field.parse().unwrap() };
    text.lines().skip(1).map(|line| line.split(',').map(number).collect()).collect()
}

fn net() -> Net {
    let zones: Vec<usize> = rows("node.csv").iter().map(|row| row[1] as usize).collect();
    let links: Vec<Link> = rows("link.csv")
        .iter()
        .map(|row| Link {
            from: row[1] as u32 - 1,
            to: row[2] as u32 - 1,
            free: (3600 * row[3]).div_ceil(1000 * row[5] * SECONDS_OF_A_STEP).max(1) as u32,
            parts_of_a_step: 1_000_000 * row[4] * row[6] * SECONDS_OF_A_STEP,
        })
        .collect();
    let ins = ByNode::new(zones.len(), &links, |link| link.to);
    let outs = ByNode::new(zones.len(), &links, |link| link.from);
    Net { zones, links, ins, outs }
}

// The trips of the demand table, by departure, then row.
fn trips() -> Vec<Trip> {
    let mut trips = Vec::new();
    for row in rows("demand.csv") {
        let vehicles = row[2] as usize;
        for j in 0..vehicles {
            trips.push(Trip {
                origin: row[0] as usize,
                destination: row[1] as usize,
                departure: ((2 * j + 1) * PERIOD / (2 * vehicles)) as u32,
            });
        }
    }
    trips.sort_by_key(|trip| trip.departure);
    trips
}

// The least free-flow steps from each node to a zone.
fn steps_left(net: &Net, zone: usize) -> Vec<u32> {
    let mut left = vec![FAR; net.zones.len()];
    let mut heap = BinaryHeap::new();
    for (node, _) in net.zones.iter().enumerate().filter(|(_, other)| **other == zone) {
        left[node] = 0;
        heap.push(Reverse((0, node)));
    }
    while let Some(Reverse((steps, node))) = heap.pop() {
        if steps > left[node] {
            continue;
        }
        for &l in net.ins.at(node) {
            let link = &net.links[l as usize];
            let from = link.from as usize;
            if steps + link.free < left[from] {
                left[from] = steps + link.free;
                heap.push(Reverse((left[from], from)));
            }
        }
    }
    left
}

// The first of these links over which the fewest steps are left.
fn first_least(net: &Net, left: &[u32], links: &[u32]) -> Option<u32> {
    let over = |l: &u32| {
        let link = &net.links[*l as usize];
        left[link.to as usize].checked_add(link.free)
    };
    links.iter().copied().filter(|l| over(l).is_some()).min_by_key(|l| (over(l), *l))
}

// The least walk between two zones that is first by its links; none where there is no walk.
fn walk(net: &Net, left: &[u32], origin: usize) -> Vec<u32> {
    let begin = (0..net.zones.len()).filter(|node| net.zones[*node] == origin);
    let firsts: Vec<u32> = begin.flat_map(|node| net.outs.at(node).to_vec()).collect();
    let mut walk = Vec::new();
    let mut next = first_least(net, left, &firsts);
    while let Some(l) = next {
        walk.push(l);
        let node = net.links[l as usize].to as usize;
        next = if left[node] == 0 { None } else { first_least(net, left, net.outs.at(node)) };
    }
    walk
}

// The links of the routes of all trips, and where each trip's begin.
struct Routes {
    starts: Vec<usize>,
    links: Vec<u32>,
}

fn routes(net: &Net, trips: &[Trip]) -> Routes {
    let mut left: HashMap<usize, Vec<u32>> = HashMap::new();
    let mut walks: HashMap<(usize, usize), Vec<u32>> = HashMap::new();
    let mut routes = Routes { starts: vec![0], links: Vec::new() };
    for trip in trips {
        let links = walks.entry((trip.origin, trip.destination)).or_insert_with(|| {
            let zone = trip.destination;
            walk(net, left.entry(zone).or_insert_with(|| steps_left(net, zone)), trip.origin)
        });
        routes.links.extend(&*links);
        routes.starts.push(routes.links.len());
    }
    routes
}

// Vehicles one behind the other.
#[derive(Clone, Copy)]
struct Line {
    first: u32,
    last: u32,
}

const NO_LINE: Line = Line { first: NOBODY, last: NOBODY };

fn push(line: &mut Line, behind: &mut [u32], vehicle: u32) {
    behind[vehicle as usize] = NOBODY;
    if line.first == NOBODY {
        line.first = vehicle;
    } else {
        behind[line.last as usize] = vehicle;
    }
    line.last = vehicle;
}

fn pop(line: &mut Line, behind: &[u32]) {
    line.first = behind[line.first as usize];
}

// A loading: each link's vehicles in order, those that wait to enter it, its credit, and how many
// may still enter it in the step; each vehicle's steps of entry, how many it has, and its arrival.
struct State<'a> {
    net: &'a Net,
    trips: &'a [Trip],
    routes: &'a Routes,
    on: Vec<Line>,
    waiting: Vec<Line>,
    carried_in: Vec<u64>,
    carried_out: Vec<u64>,
    may_enter: Vec<u64>,
    behind: Vec<u32>,
    entries: Vec<u32>,
    made: Vec<u32>,
    arrivals: Vec<Option<u32>>,
}

// Adds a step's parts to what is carried, and takes the whole vehicles out.
fn grant(carried: &mut u64, parts: u64) -> u64 {
    let all = *carried + parts;
    *carried = all % PARTS_OF_A_VEHICLE;
    all / PARTS_OF_A_VEHICLE
}

impl<'a> State<'a> {
    fn new(net: &'a Net, trips: &'a [Trip], routes: &'a Routes) -> State<'a> {
        let links = net.links.len();
        let mut state = State {
            net,
            trips,
            routes,
            on: vec![NO_LINE; links],
            waiting: vec![NO_LINE; links],
            carried_in: vec![0; links],
            carried_out: vec![0; links],
            may_enter: vec![0; links],
            behind: vec![NOBODY; trips.len()],
            entries: vec![0; routes.links.len()],
            made: vec![0; trips.len()],
            arrivals: vec![None; trips.len()],
        };
        for v in 0..trips.len() {
            if routes.starts[v] < routes.starts[v + 1] {
                let first = routes.links[routes.starts[v]] as usize;
                push(&mut state.waiting[first], &mut state.behind, v as u32);
            }
        }
        state
    }

    // Notes that a vehicle enters a link, at its end.
    fn enter(&mut self, vehicle: u32, link: usize, step: u32) {
        let v = vehicle as usize;
        self.entries[self.routes.starts[v] + self.made[v] as usize] = step;
        self.made[v] += 1;
        push(&mut self.on[link], &mut self.behind, vehicle);
        self.may_enter[link] -= 1;
    }

    // Moves the head of a link, where it may move, and says whether it did.
    fn move_head(&mut self, link: usize, step: u32) -> bool {
        let vehicle = self.on[link].first;
        if vehicle == NOBODY {
            return false;
        }
        let v = vehicle as usize;
        let place = self.routes.starts[v] + self.made[v] as usize;
        if self.entries[place - 1] + self.net.links[link].free > step {
            return false;
        }
        if place == self.routes.starts[v + 1] {
            pop(&mut self.on[link], &self.behind);
            self.arrivals[v] = Some(step);
            return true;
        }
        let next = self.routes.links[place] as usize;
        if self.may_enter[next] == 0 {
            return false;
        }
        pop(&mut self.on[link], &self.behind);
        self.enter(vehicle, next, step);
        true
    }

    // Moves the heads of a link while they may move and its allowance lasts.
    fn pass(&mut self, link: usize, step: u32) {
        let parts = self.net.links[link].parts_of_a_step;
        let mut may_leave = grant(&mut self.carried_out[link], parts);
        while may_leave > 0 && self.move_head(link, step) {
            may_leave -= 1;
        }
    }

    // Lets those in who wait for a link and are due.
    fn admit(&mut self, link: usize, step: u32) {
        while self.waiting[link].first != NOBODY && self.may_enter[link] > 0 {
            let vehicle = self.waiting[link].first;
            if self.trips[vehicle as usize].departure > step {
                return;
            }
            pop(&mut self.waiting[link], &self.behind);
            self.enter(vehicle, link, step);
        }
    }

    // The moves of a node in a step.
    fn step_node(&mut self, node: usize, step: u32) {
        let net = self.net;
        let ins = net.ins.at(node);
        let outs = net.outs.at(node);
        for &b in outs {
            let parts = net.links[b as usize].parts_of_a_step;
            self.may_enter[b as usize] = grant(&mut self.carried_in[b as usize], parts);
        }
        let start = if ins.is_empty() { 0 } else { step as usize % ins.len() };
        let (front, back) = ins.split_at(start);
        for &l in back.iter().chain(front) {
            self.pass(l as usize, step);
        }
        for &b in outs {
            self.admit(b as usize, step);
        }
    }
}

fn main() {
    let net = net();
    let trips = trips();
    let routes = routes(&net, &trips);
    let start = Instant::now();
    let mut state = State::new(&net, &trips, &routes);
    for step in 0..HORIZON {
        for node in 0..net.zones.len() {
            state.step_node(node, step);
        }
    }
    let took = start.elapsed();
    let arrived = state.arrivals.iter().flatten().count();
    let sum: u64 = state.arrivals.iter().flatten().map(|step| u64::from(*step)).sum();
    let entries: u64 = state.made.iter().map(|made| u64::from(*made)).sum();
    println!("{}", took.as_nanos());
    println!("{arrived} arrived, sum of arrivals {sum}, {entries} entries");
}
