//! Fills labels of eight zones on a grid of 60 nodes a side, as bench/programs/fills.txt does, so
//! often as there are words, and prints how many steps the last walk takes.

const SIDE: u32 = 60;
const HORIZON: usize = 1200;
const BUCKET: usize = 50;
const FAR: u16 = 1 << 15;
const FAR_FREE: u32 = 1 << 31;
const NO_ZONE: u32 = u32::MAX;

struct Way {
    link: u32,
    to: u32,
}

struct Span {
    time: u32,
    to: u32,
}

struct Grid {
    starts: Vec<usize>,
    ways: Vec<Way>,
    zones: Vec<u32>,
    free: Vec<u32>,
    times: Vec<u32>,
}

// A grid whose links take 4 to 12 steps, in all buckets the same.
fn grid() -> Grid {
    let (mut starts, mut ways, mut free) = (vec![0], Vec::new(), Vec::new());
    let mut zones = vec![NO_ZONE; (SIDE * SIDE) as usize];
    let middle = SIDE * SIDE / 2;
    let nodes = [
        0,
        SIDE / 2,
        SIDE - 1,
        middle,
        middle + SIDE - 1,
        SIDE * (SIDE - 1),
        SIDE * SIDE - SIDE / 2,
        SIDE * SIDE - 1,
    ];
    for (zone, node) in nodes.iter().enumerate() {
        zones[*node as usize] = zone as u32;
    }
    for row in 0..SIDE {
        for column in 0..SIDE {
            let here = row * SIDE + column;
            let mut add = |to: u32| {
                let link = ways.len() as u32;
                ways.push(Way { link, to });
                free.push(4 + link * 7 % 9);
            };
            if column + 1 < SIDE { add(here + 1); }
            if column > 0 { add(here - 1); }
            if row + 1 < SIDE { add(here + SIDE); }
            if row > 0 { add(here - SIDE); }
            starts.push(ways.len());
        }
    }
    let buckets = HORIZON / BUCKET;
    let times = free.iter().flat_map(|&time| vec![time; buckets]).collect();
    Grid { starts, ways, zones, free, times }
}

// Least free-flow times from each node to a zone.
fn tail(grid: &Grid, zone: u32) -> Vec<u32> {
    let mut tail = vec![FAR_FREE; grid.zones.len()];
    let mut changed = true;
    while changed {
        changed = false;
        for node in 0..tail.len() {
            let mut least = if grid.zones[node] == zone { 0 } else { FAR_FREE };
            for way in &grid.ways[grid.starts[node]..grid.starts[node + 1]] {
                least = least.min(tail[way.to as usize] + grid.free[way.link as usize]);
            }
            if least < tail[node] {
                tail[node] = least;
                changed = true;
            }
        }
    }
    tail
}

// The steps that are left from each node at each step, eight zones side by side.
fn labels(grid: &Grid) -> Vec<[u16; 8]> {
    let nodes = grid.zones.len();
    let mut cells = vec![[FAR; 8]; (HORIZON + 1) * nodes];
    for lane in 0..8 {
        for (node, left) in tail(grid, lane as u32).iter().enumerate() {
            cells[node][lane] = (*left).min(FAR as u32) as u16;
        }
    }
    let mut spans: Vec<Span> = Vec::new();
    for step in (0..HORIZON).rev() {
        if step + 1 == HORIZON || (step + 1) % BUCKET == 0 {
            spans = grid.ways.iter().map(|way| {
                let time = grid.times[way.link as usize * (HORIZON / BUCKET) + step / BUCKET];
                Span { time, to: way.to }
            }).collect();
        }
        let back = HORIZON - step;
        for node in 0..nodes {
            let mut least = [FAR; 8];
            for span in &spans[grid.starts[node]..grid.starts[node + 1]] {
                let from = back.saturating_sub(span.time as usize);
                let left = cells[from * nodes + span.to as usize];
                for lane in 0..8 {
                    least[lane] = least[lane].min(left[lane] + span.time as u16);
                }
            }
            if grid.zones[node] != NO_ZONE {
                least[grid.zones[node] as usize] = 0;
            }
            cells[back * nodes + node] = least;
        }
    }
    cells
}

fn main() {
    let fills = std::env::args().skip(1).count();
    let grid = grid();
    let mut least = 0;
    for _ in 0..fills {
        let cells = labels(&grid);
        let nodes = grid.zones.len();
        let last = nodes - 1;
        least = grid.ways[grid.starts[last]..grid.starts[last + 1]]
            .iter()
            .map(|way| {
                let time = grid.free[way.link as usize];
                time + cells[(HORIZON - time as usize) * nodes + way.to as usize][0] as u32
            })
            .min()
            .unwrap();
    }
    println!("least {least}");
}
