//! Moves riders through a ring of lines, as bench/programs/lines.txt does, and prints how many
//! moves there were.
use std::collections::LinkedList;
use std::mem;

const LINES: usize = 1000;
const RIDERS_OF_A_LINE: u32 = 100;
const STEPS: u32 = 100;

#[allow(dead_code)]
struct Rider {
    number: u32,
    departure: u32,
    route: Vec<u32>,
    entries: Vec<u32>,
    arrival: Option<u32>,
}

impl Rider {
    // A rider with room for the entry steps of all links of its route.
    fn new(number: u32, departure: u32, route: &[u32]) -> Rider {
        Rider {
            number,
            departure,
            route: route.to_vec(),
            entries: Vec::with_capacity(route.len()),
            arrival: None,
        }
    }

    fn next_link(&self) -> Option<u32> {
        self.route.get(self.entries.len()).copied()
    }

    fn note(&mut self, step: u32) {
        if self.entries.len() < self.route.len() {
            self.entries.push(step);
        } else {
            self.arrival = Some(step);
        }
    }
}

// Moves the first rider of a line to the end of another.
fn move_front_to(line: &mut LinkedList<Rider>, other: &mut LinkedList<Rider>, step: u32) {
    if let Some(rider) = line.front_mut() {
        rider.note(step);
    }
    let rest = line.split_off(1);
    let mut first = mem::replace(line, rest);
    other.append(&mut first);
}

// Moves all riders of a line to the next one, and answers how many they are.
fn pass(line: &mut LinkedList<Rider>, next: &mut LinkedList<Rider>, step: u32) -> u64 {
    let mut moves = 0;
    for _ in 0..line.len() {
        if line.front().and_then(Rider::next_link).is_some() {
            move_front_to(line, next, step);
            moves += 1;
        }
    }
    moves
}

// Moves all riders of each line to the line after it in the ring.
fn turn(ring: &mut [LinkedList<Rider>], step: u32) -> u64 {
    let mut moves = 0;
    let mut batch = LinkedList::new();
    for line in ring.iter_mut() {
        let mut next = LinkedList::new();
        moves += pass(line, &mut next, step);
        line.append(&mut batch);
        batch = next;
    }
    if let Some(line) = ring.first_mut() {
        line.append(&mut batch);
    }
    moves
}

fn main() {
    let route: Vec<u32> = (0..STEPS).collect();
    let mut ring = Vec::with_capacity(LINES);
    for _ in 0..LINES {
        let riders = (0..RIDERS_OF_A_LINE).map(|number| Rider::new(number, 0, &route));
        ring.push(riders.collect::<LinkedList<Rider>>());
    }
    let mut moves = 0;
    for step in 0..STEPS {
        moves += turn(&mut ring, step);
    }
    println!("{moves}");
}
