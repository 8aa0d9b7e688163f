//! The part `works` of `crates/table_equations` in plain Rust over std's HashMap, to be timed beside it: the same sizes, works and numbers.
//! A store as one would write it: names in a map and in a list, bodies by slots.

use std::collections::HashMap;
use std::rc::Rc;

#[derive(Clone, Copy, PartialEq, Eq, Hash)]
struct Step {
    rule: u16,
    child: u8,
}

#[derive(Clone, PartialEq, Eq, Hash)]
struct Node {
    start: u16,
    case: u64,
    steps: Rc<[Step]>,
}

#[derive(Clone, Copy, PartialEq, Eq, Hash)]
enum Slot {
    Result(u16),
    Part(u16),
}

#[derive(Clone, PartialEq, Eq, Hash)]
struct Ref {
    node: Node,
    slot: Slot,
}

enum Body {
    Same(Ref),
    Con(u16, Vec<Ref>),
    Num(u64),
    Text(Vec<u8>),
}

struct Equation {
    left: Ref,
    body: Body,
}

#[derive(PartialEq, Eq)]
enum Stored {
    Missing,
    Same(usize),
    Con(u16, Vec<usize>),
    Num(u64),
    Text(Vec<u8>),
}

enum Added {
    New,
    Same,
    Conflict,
}

struct Store {
    slots: HashMap<Ref, usize>,
    names: Vec<Ref>,
    bodies: Vec<Stored>,
    count: usize,
}

impl Store {
    fn new() -> Store {
        Store {
            slots: HashMap::new(),
            names: Vec::new(),
            bodies: Vec::new(),
            count: 0,
        }
    }

    fn name(&mut self, r: &Ref) -> usize {
        if let Some(slot) = self.slots.get(r) {
            return *slot;
        }
        let slot = self.names.len();
        self.slots.insert(r.clone(), slot);
        self.names.push(r.clone());
        self.bodies.push(Stored::Missing);
        slot
    }

    fn stored(&mut self, body: Body) -> Stored {
        match body {
            Body::Same(r) => Stored::Same(self.name(&r)),
            Body::Con(con, parts) => {
                Stored::Con(con, parts.iter().map(|r| self.name(r)).collect())
            }
            Body::Num(number) => Stored::Num(number),
            Body::Text(text) => Stored::Text(text),
        }
    }

    fn reserve(&mut self, es: &[Equation]) {
        for e in es {
            self.name(&e.left);
            match &e.body {
                Body::Same(r) => {
                    self.name(r);
                }
                Body::Con(_, parts) => {
                    for r in parts {
                        self.name(r);
                    }
                }
                Body::Num(_) | Body::Text(_) => {}
            }
        }
    }

    fn add(&mut self, e: Equation) -> Added {
        let slot = self.name(&e.left);
        let body = self.stored(e.body);
        if self.bodies[slot] == Stored::Missing {
            self.bodies[slot] = body;
            self.count += 1;
            return Added::New;
        }
        if self.bodies[slot] == body {
            Added::Same
        } else {
            Added::Conflict
        }
    }

    fn chase(&self, slot: usize) -> usize {
        let mut at = slot;
        for _ in 0..=self.count {
            match self.bodies[at] {
                Stored::Same(next) => at = next,
                _ => return at,
            }
        }
        slot
    }

    fn look(&self, r: &Ref) -> u64 {
        let Some(&slot) = self.slots.get(r) else {
            return 7;
        };
        match self.bodies[slot] {
            Stored::Missing => 0,
            Stored::Same(_) => self.chase(slot) as u64,
            Stored::Con(_, _) => 2,
            Stored::Num(_) => 3,
            Stored::Text(_) => 4,
        }
    }
}

#[derive(Clone, Copy)]
struct Size {
    count: u64,
    depth: Option<u64>,
}

impl Size {
    fn node(self, i: u64) -> Node {
        let depth = self.depth.unwrap_or(1 + i % 3);
        let steps: Vec<Step> = (0..depth)
            .map(|k| Step {
                rule: ((i % 1000 + k % 1000) % 50) as u16,
                child: (k % 8) as u8 + 1,
            })
            .collect();
        Node {
            start: (i % 16) as u16,
            case: i,
            steps: steps.into(),
        }
    }
}

fn reference(node: &Node, which: u8) -> Ref {
    let slot = match which {
        0 => Slot::Result(1),
        1 => Slot::Result(2),
        2 => Slot::Part(1),
        _ => Slot::Part(2),
    };
    Ref {
        node: node.clone(),
        slot,
    }
}

fn equation(node: &Node, which: u8) -> Equation {
    let body = match which {
        0 => Body::Con(7, vec![reference(node, 2), reference(node, 3)]),
        1 => Body::Same(reference(node, 0)),
        2 => Body::Num(node.case),
        _ => Body::Text(b"abcdefgh".to_vec()),
    };
    Equation {
        left: reference(node, which),
        body,
    }
}

/// The sum of what is done with each reference of each node.
fn sum(size: Size, mut each: impl FnMut(&Node, u8) -> u64) -> u64 {
    let mut sum: u64 = 0;
    for i in 0..size.count {
        let node = size.node(i);
        for which in 0..4 {
            sum = sum.wrapping_add(each(&node, which));
        }
    }
    sum
}

fn name_all(store: &mut Store, size: Size) -> u64 {
    sum(size, |node, which| store.name(&reference(node, which)) as u64)
}

fn add_all(store: &mut Store, size: Size) -> u64 {
    sum(size, |node, which| match store.add(equation(node, which)) {
        Added::New => 1,
        Added::Same | Added::Conflict => 0,
    })
}

fn reserve_all(store: &mut Store, size: Size) -> u64 {
    sum(size, |node, which| {
        store.reserve(&[equation(node, which)]);
        match store.add(equation(node, which)) {
            Added::New => 1,
            Added::Same | Added::Conflict => 0,
        }
    })
}

fn run(size: Size, work: &str) -> Option<u64> {
    let mut store = Store::new();
    match work {
        "built" => Some(sum(size, |node, which| reference(node, which).node.case)),
        "named" => Some(name_all(&mut store, size)),
        "added" => Some(add_all(&mut store, size)),
        "both" => {
            name_all(&mut store, size);
            Some(add_all(&mut store, size))
        }
        "reserved" => Some(reserve_all(&mut store, size)),
        "read" => {
            name_all(&mut store, size);
            add_all(&mut store, size);
            Some(sum(size, |node, which| store.look(&reference(node, which))))
        }
        _ => None,
    }
}

fn main() {
    for arg in std::env::args().skip(1) {
        let (size, work) = arg.split_once('-').expect("SIZE-WORK");
        let size = match size {
            "small" => Size { count: 2_500, depth: None },
            "wide" => Size { count: 250_000, depth: None },
            "deep" => Size { count: 10_000, depth: Some(100) },
            _ => panic!("no such size"),
        };
        println!("{}", run(size, work).expect("no such work"));
    }
}
