//! The claims of a floor: as many workers as the first word says claim, open and finish each unit
//! of 1,200 steps over as many nodes as the second word says. Prints how many units there are, and
//! the nanoseconds that it takes.
use std::hint::black_box;
use std::sync::atomic::{AtomicU64, Ordering::SeqCst};
use std::thread;
use std::time::Instant;

const HORIZON: u64 = 1200;

#[derive(Clone, Copy)]
enum Kind {
    Transfer(u32),
    Gather(u32),
    Posting,
}

#[derive(Clone, Copy)]
struct Unit {
    number: u64,
    step: u32,
    kind: Kind,
}

struct Floor {
    words: Vec<AtomicU64>,
    nodes: u64,
}

impl Floor {
    fn count(&self) -> u64 {
        HORIZON * (2 * self.nodes + 1)
    }

    fn claim(&self) -> Option<Unit> {
        let number = self.words[1].fetch_add(1, SeqCst);
        if number >= self.count() {
            return None;
        }
        let (step, place) = (number / (2 * self.nodes + 1), number % (2 * self.nodes + 1));
        let kind = if place < self.nodes {
            Kind::Transfer(place as u32)
        } else if place < 2 * self.nodes {
            Kind::Gather((place - self.nodes) as u32)
        } else {
            Kind::Posting
        };
        Some(Unit { number, step: step as u32, kind })
    }

    fn open(&self, unit: Unit) -> bool {
        let place = unit.number % (2 * self.nodes + 1);
        let first = unit.number - place + if place < self.nodes {
            0
        } else if place < 2 * self.nodes {
            self.nodes
        } else {
            2 * self.nodes
        };
        first <= self.words[2].load(SeqCst)
    }

    fn finish(&self) {
        self.words[2].fetch_add(1, SeqCst);
    }
}

fn work(floor: &Floor) {
    while let Some(unit) = floor.claim() {
        while !floor.open(unit) {
            thread::yield_now();
        }
        match unit.kind {
            Kind::Transfer(n) | Kind::Gather(n) => black_box(n),
            Kind::Posting => black_box(unit.step),
        };
        floor.finish();
    }
}

fn main() {
    let words: Vec<u64> = std::env::args().skip(1).map(|word| word.parse().unwrap()).collect();
    let floor = Floor {
        words: (0..3).map(|_| AtomicU64::new(0)).collect(),
        nodes: words[1],
    };
    let start = Instant::now();
    thread::scope(|scope| {
        for _ in 1..words[0] {
            scope.spawn(|| work(&floor));
        }
        work(&floor);
    });
    let took = start.elapsed().as_nanos();
    assert!(floor.words[2].load(SeqCst) == floor.count());
    println!("{} {}", floor.count(), took);
}
