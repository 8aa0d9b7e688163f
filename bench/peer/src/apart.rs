//! Workspaces apart: each has a store of its own; messages carry names that stand for themselves.
use crate::lex::*;
use crate::out::*;
use crate::sched::*;
use crate::spec::*;
use crate::world::{CON, MISSING, NUM, PART, Prog, RESULT, SAME, TEXT, prepare};
use std::cmp::Ordering;
use std::rc::Rc;

const NONE: u32 = u32::MAX;
const OPEN: u16 = u16::MAX;
const FEW: usize = 8;

/// A name, shared by count: up to eight steps packed.
pub struct NameCell {
    pub case: u64,
    /// Steps from the highest bits on, 16 bits each; of longer names a number made of them.
    pub code: u128,
    pub more: Vec<u16>,
    pub start: u16,
    pub depth: u16,
    /// Guesses: the number at the stores that looked it up last, and among the written names.
    at: [std::cell::Cell<u32>; 2],
    text: std::cell::Cell<u32>,
}
#[derive(Clone)]
pub struct Name(Rc<NameCell>);
impl std::ops::Deref for Name {
    type Target = NameCell;
    #[inline(always)]
    fn deref(&self) -> &NameCell {
        &self.0
    }
}

#[inline(always)]
fn step_code(rule: u16, child: u8) -> u16 {
    // rules below 1024, children 1 to 8
    rule << 4 | child as u16
}
#[inline(always)]
fn mix(a: u64, b: u64) -> u64 {
    let x = (a ^ 0x9e37_79b9_7f4a_7c15) as u128 * (b ^ 0xd6e8_feb8_6659_fd93) as u128;
    (x as u64) ^ (x >> 64) as u64
}

impl Name {
    fn make(start: u16, case: u64, code: u128, depth: usize, more: Vec<u16>) -> Name {
        let none = || std::cell::Cell::new(u32::MAX);
        Name(Rc::new(NameCell { case, code, more, start, depth: depth as u16, at: [none(), none()], text: none() }))
    }
    #[inline]
    fn root(start: u16, case: u64) -> Name {
        Name::make(start, case, 0, 0, Vec::new())
    }
    #[inline]
    fn hash(&self) -> u64 {
        mix(self.case ^ (self.start as u64) << 56, (self.code as u64 ^ ((self.code >> 64) as u64).rotate_left(7)).wrapping_add(self.depth as u64))
    }
    #[inline]
    fn same(&self, o: &Name) -> bool {
        self.case == o.case
            && self.code == o.code
            && self.start == o.start
            && self.depth == o.depth
            && (self.depth as usize <= FEW || self.more == o.more)
    }
    fn with_steps<R>(&self, f: impl FnOnce(&[u16]) -> R) -> R {
        if self.depth as usize <= FEW {
            let mut b = [0u16; FEW];
            for k in 0..FEW {
                b[k] = (self.code >> (112 - 16 * k)) as u16;
            }
            f(&b[..self.depth as usize])
        } else {
            f(&self.more)
        }
    }
    fn digest(s: &[u16]) -> u128 {
        let mut h = 0u64;
        for x in s {
            h = h.wrapping_mul(11_400_714_819_323_198_485).wrapping_add(*x as u64);
        }
        h as u128
    }
    fn of(start: u16, case: u64, s: &[u16]) -> Name {
        if s.len() <= FEW {
            let mut code = 0u128;
            for (k, x) in s.iter().enumerate() {
                code |= (*x as u128) << (112 - 16 * k);
            }
            Name::make(start, case, code, s.len(), Vec::new())
        } else {
            Name::make(start, case, Name::digest(s), s.len(), s.to_vec())
        }
    }
    #[inline]
    fn child(&self, step: u16) -> Name {
        let d = self.depth as usize;
        if d < FEW {
            Name::make(self.start, self.case, self.code | (step as u128) << (112 - 16 * d), d + 1, Vec::new())
        } else {
            self.long_child(step)
        }
    }
    #[cold]
    fn long_child(&self, step: u16) -> Name {
        let d = self.depth as usize;
        let v = self.with_steps(|s| {
            let mut v = Vec::with_capacity(s.len() + 1);
            v.extend_from_slice(s);
            v.push(step);
            v
        });
        let code = if d == FEW { Name::digest(&v) } else { (self.code as u64).wrapping_mul(11_400_714_819_323_198_485).wrapping_add(step as u64) as u128 };
        Name::make(self.start, self.case, code, d + 1, v)
    }
    #[inline]
    fn last(&self) -> Option<u16> {
        let d = self.depth as usize;
        if d == 0 {
            None
        } else if d <= FEW {
            Some((self.code >> (112 - 16 * (d - 1))) as u16)
        } else {
            self.more.last().copied()
        }
    }
    fn cmp(&self, o: &Name) -> Ordering {
        (self.start, self.case).cmp(&(o.start, o.case)).then_with(|| {
            if self.depth as usize <= FEW && o.depth as usize <= FEW {
                self.code.cmp(&o.code)
            } else {
                self.with_steps(|a| o.with_steps(|b| a.cmp(b)))
            }
        })
    }
}

#[derive(Clone)]
pub struct NRef {
    name: Name,
    slot: u16,
}

/// A text, in quotes as it is printed.
#[derive(Clone)]
pub enum Txt {
    Short(u8, [u8; 22]),
    Long(Rc<[u8]>),
}
impl Txt {
    fn of(b: &[u8]) -> Txt {
        if b.len() <= 22 {
            let mut a = [0; 22];
            a[..b.len()].copy_from_slice(b);
            Txt::Short(b.len() as u8, a)
        } else {
            Txt::Long(Rc::from(b))
        }
    }
    fn bytes(&self) -> &[u8] {
        match self {
            Txt::Short(n, a) => &a[..*n as usize],
            Txt::Long(b) => b,
        }
    }
}

pub enum NRefs {
    None,
    One(NRef),
    Two([NRef; 2]),
    Many(Box<[NRef]>),
}
impl NRefs {
    fn of(s: &Site, cs: &[u32]) -> NRefs {
        match cs {
            [] => NRefs::None,
            [a] => NRefs::One(s.ref_of(*a)),
            [a, b] => NRefs::Two([s.ref_of(*a), s.ref_of(*b)]),
            _ => NRefs::Many(cs.iter().map(|r| s.ref_of(*r)).collect()),
        }
    }
    #[inline]
    fn list(&self) -> &[NRef] {
        match self {
            NRefs::None => &[],
            NRefs::One(r) => std::slice::from_ref(r),
            NRefs::Two(r) => r,
            NRefs::Many(r) => r,
        }
    }
}

pub enum NBody {
    Same(NRef),
    Con(u16, NRefs),
    Num(u64),
    Text(Txt),
}
pub struct NEq {
    left: NRef,
    body: NBody,
}
pub enum Kind {
    Call(Name, NRefs, Box<[NEq]>),
    Ask(NRef, u8),
    Tell(NEq, Box<[NEq]>),
}
#[derive(Clone)]
pub struct Msg {
    to: u8,
    kind: Rc<Kind>,
}

struct Cell {
    a: u64,
    watch: u64,
    node: u32,
    slot: u16,
    /// The highest bit: asked for.
    tag: u8,
    home: u8,
}
const ASKED: u8 = 0x80;

struct SNode {
    name: Name,
    results: u32,
    inherited: u32,
    parts: u32,
    parts_len: u16,
    sort: u16,
    done: u16,
    home: u8,
    held: bool,
}

enum Guard {
    Yes,
    Waits(u32),
    Differs(u32),
}
pub enum Answer {
    Known,
    NotHere,
    Developed,
    NotItsRule,
    Arguments,
    Waits(u32),
    Differs(u32),
    TooDeep,
    Taken,
}

pub struct Prep {
    spec: &'static Spec,
    progs: Vec<Prog>,
    home: Vec<u8>,
    loads: bool,
}

pub struct Site {
    role: u8,
    nodes: Vec<SNode>,
    table: Vec<u32>,
    cells: Vec<Cell>,
    cell_table: Vec<u32>,
    cells_hashed: usize,
    pool: Vec<u32>,
    texts: Vec<u8>,
    outbox: Vec<Msg>,
    order: Vec<u32>,
    choices: Vec<(u32, u16)>,
    bind: [u32; 64],
    stack: Vec<u32>,
    asks: Vec<u32>,
    plan: Vec<Msg>,
}

impl Site {
    fn new(role: u8) -> Site {
        Site {
            role,
            nodes: Vec::new(),
            table: vec![0; 64],
            cells: Vec::new(),
            cell_table: vec![0; 64],
            cells_hashed: 0,
            pool: Vec::new(),
            texts: Vec::new(),
            outbox: Vec::new(),
            order: Vec::new(),
            choices: Vec::new(),
            bind: [0; 64],
            stack: Vec::new(),
            asks: Vec::new(),
            plan: Vec::new(),
        }
    }
    // ---- names
    #[inline]
    fn place(&self, n: &Name) -> usize {
        let m = self.table.len() - 1;
        let mut i = (n.hash() >> 20) as usize & m;
        loop {
            let k = self.table[i];
            if k == 0 || self.nodes[k as usize - 1].name.same(n) {
                return i;
            }
            i = (i + 1) & m;
        }
    }
    #[inline]
    fn find(&mut self, n: &Name) -> u32 {
        let guess = n.at[self.role as usize & 1].get();
        if let Some(d) = self.nodes.get(guess as usize)
            && d.name.same(n)
        {
            return guess;
        }
        match self.table[self.place(n)] {
            0 => NONE,
            k => {
                n.at[self.role as usize & 1].set(k - 1);
                k - 1
            }
        }
    }
    /// The sort of a name, where it is valid.
    fn sort_of(g: &Prep, n: &Name) -> Option<u16> {
        let mut sort = n.start;
        if !g.spec.sort.get(sort as usize)?.start {
            return None;
        }
        n.with_steps(|s| {
            for x in s {
                let (rule, child) = (x >> 4, (x & 15) as usize);
                let r = g.spec.rule.get(rule as usize)?;
                if r.sort != sort {
                    return None;
                }
                sort = r.children.get(child.wrapping_sub(1))?.sort;
            }
            Some(sort)
        })
    }
    /// Names a node that is not named; its name is valid.
    fn add_node(&mut self, g: &Prep, n: Name, sort: u16) -> u32 {
        let k = self.nodes.len() as u32;
        if (self.nodes.len() + 1) * 2 > self.table.len() {
            self.table = vec![0; self.table.len() * 4];
            for j in 0..self.nodes.len() {
                let i = self.place(&self.nodes[j].name);
                self.table[i] = j as u32 + 1;
            }
        }
        let i = self.place(&n);
        self.table[i] = k + 1;
        let results = self.cells.len() as u32;
        let home = g.home[sort as usize];
        for j in 1..=g.spec.sort[sort as usize].gives as u16 {
            self.cells.push(Cell { a: 0, watch: 0, node: k, slot: j, tag: MISSING, home });
        }
        self.nodes.push(SNode { name: n, results, inherited: 0, parts: 0, parts_len: 0, sort, done: OPEN, home, held: false });
        self.nodes[k as usize].name.at[self.role as usize & 1].set(k);
        k
    }
    /// The number of a name that came; none where it is not valid.
    #[inline]
    fn name(&mut self, g: &Prep, n: &Name) -> Option<u32> {
        match self.find(n) {
            NONE => {
                let sort = Self::sort_of(g, n)?;
                Some(self.add_node(g, n.clone(), sort))
            }
            k => Some(k),
        }
    }
    #[inline]
    fn cell_place(&self, node: u32, slot: u16) -> usize {
        let m = self.cell_table.len() - 1;
        let mut i = (mix(node as u64, slot as u64) >> 20) as usize & m;
        loop {
            let k = self.cell_table[i];
            if k == 0 || (self.cells[k as usize - 1].node == node && self.cells[k as usize - 1].slot == slot) {
                return i;
            }
            i = (i + 1) & m;
        }
    }
    /// The cell of a valid slot of a node.
    #[inline]
    fn cell(&mut self, g: &Prep, node: u32, slot: u16) -> Option<u32> {
        let d = &self.nodes[node as usize];
        if slot & PART == 0 {
            return (slot >= 1 && slot <= g.spec.sort[d.sort as usize].gives as u16).then(|| d.results + slot as u32 - 1);
        }
        let k = (slot & !PART).wrapping_sub(1);
        if k < d.parts_len {
            return Some(d.parts + k as u32);
        }
        if k >= 512 {
            return None;
        }
        let home = d.home;
        let mut i = self.cell_place(node, slot);
        if self.cell_table[i] == 0 {
            if (self.cells_hashed + 1) * 2 > self.cell_table.len() {
                let old = std::mem::take(&mut self.cell_table);
                self.cell_table = vec![0; old.len() * 4];
                for k in old {
                    if k != 0 {
                        let c = &self.cells[k as usize - 1];
                        let i = self.cell_place(c.node, c.slot);
                        self.cell_table[i] = k;
                    }
                }
                i = self.cell_place(node, slot);
            }
            self.cells.push(Cell { a: 0, watch: 0, node, slot, tag: MISSING, home });
            self.cells_hashed += 1;
            self.cell_table[i] = self.cells.len() as u32;
        }
        Some(self.cell_table[i] - 1)
    }
    #[inline]
    fn reference(&mut self, g: &Prep, r: &NRef) -> Option<u32> {
        let n = self.name(g, &r.name)?;
        self.cell(g, n, r.slot)
    }
    #[inline]
    fn ref_of(&self, c: u32) -> NRef {
        let x = &self.cells[c as usize];
        NRef { name: self.nodes[x.node as usize].name.clone(), slot: x.slot }
    }
    fn body_of(&self, g: &Prep, c: u32) -> NBody {
        let x = &self.cells[c as usize];
        match x.tag {
            SAME => NBody::Same(self.ref_of(x.a as u32)),
            CON => {
                let con = (x.a >> 32) as u16;
                let at = x.a as u32 as usize;
                let n = g.spec.arity[con as usize] as usize;
                NBody::Con(con, NRefs::of(self, &self.pool[at..at + n]))
            }
            NUM => NBody::Num(x.a),
            _ => NBody::Text(Txt::of(self.text(x.a))),
        }
    }
    fn text(&self, a: u64) -> &[u8] {
        &self.texts[(a >> 32) as usize..][..a as u32 as usize]
    }
    fn keep_text(&mut self, b: &[u8]) -> u64 {
        let at = self.texts.len();
        self.texts.extend_from_slice(b);
        (at as u64) << 32 | b.len() as u64
    }
    // ---- guard
    fn guard(&mut self, n: u32, p: &Prog, src: &[u8]) -> Guard {
        let inherited = self.nodes[n as usize].inherited as usize;
        let takes = p.takes as usize;
        if p.all_vars {
            self.bind[..takes].copy_from_slice(&self.pool[inherited..inherited + takes]);
            return Guard::Yes;
        }
        self.stack.clear();
        self.stack.extend(self.pool[inherited..inherited + takes].iter().rev());
        let mut vars = 0;
        for (k, t) in p.patterns.iter().enumerate() {
            let r = self.stack.pop().unwrap();
            if let Term::Var(_) = t {
                self.bind[vars] = r;
                vars += 1;
                continue;
            }
            let mut e = r;
            while self.cells[e as usize].tag == SAME {
                e = self.cells[e as usize].a as u32;
            }
            let (tag, a) = (self.cells[e as usize].tag, self.cells[e as usize].a);
            if tag & !ASKED == MISSING {
                return Guard::Waits(e);
            }
            let same = match *t {
                Term::Num(n) => tag == NUM && a == n,
                Term::Text(at, len) => tag == TEXT && self.text(a) == &src[at as usize..(at + len) as usize],
                Term::Con(c, n) => {
                    let yes = tag == CON && (a >> 32) as u16 == c;
                    if yes {
                        let at = a as u32 as usize;
                        self.stack.extend(self.pool[at..at + n as usize].iter().rev());
                    }
                    yes
                }
                Term::Var(_) => true,
            };
            if !same {
                return Guard::Differs(k as u32);
            }
        }
        Guard::Yes
    }
    // ---- holding
    fn hold(&mut self, n: u32) {
        self.nodes[n as usize].held = true;
        let name = &self.nodes[n as usize].name;
        match self.order.last() {
            Some(l) if self.nodes[*l as usize].name.cmp(name) == Ordering::Greater => {
                let at = self.order.partition_point(|o| self.nodes[*o as usize].name.cmp(name) == Ordering::Less);
                self.order.insert(at, n);
            }
            _ => self.order.push(n),
        }
    }
    fn start(&mut self, g: &Prep, sort: u16, case: u64) -> Answer {
        let name = Name::root(sort, case);
        let n = match self.find(&name) {
            NONE => {
                // room first
                self.order.reserve(1);
                self.choices.reserve(1);
                self.nodes.reserve(1);
                self.cells.reserve(8);
                self.add_node(g, name, sort)
            }
            k if self.nodes[k as usize].held => return Answer::Known,
            k => k,
        };
        self.hold(n);
        self.choices.push((n, 0));
        Answer::Taken
    }
    #[inline]
    fn mention(&mut self, r: u32) {
        let role = self.role;
        let x = &mut self.cells[r as usize];
        if x.home != role && x.tag == MISSING {
            x.tag = ASKED;
            self.asks.push(r);
        }
    }
    fn mention_body(&mut self, g: &Prep, c: u32) {
        let x = &self.cells[c as usize];
        match x.tag {
            SAME => self.mention(x.a as u32),
            CON => {
                let at = x.a as u32 as usize;
                for k in at..at + g.spec.arity[(x.a >> 32) as usize] as usize {
                    self.mention(self.pool[k]);
                }
            }
            _ => {}
        }
    }
    fn cmp_cells(&self, a: u32, b: u32) -> Ordering {
        let (x, y) = (&self.cells[a as usize], &self.cells[b as usize]);
        if x.node == y.node { x.slot.cmp(&y.slot) } else { self.nodes[x.node as usize].name.cmp(&self.nodes[y.node as usize].name) }
    }
    fn plan_asks(&mut self, plan: &mut Vec<Msg>) {
        let mut asks = std::mem::take(&mut self.asks);
        if asks.len() > 1 {
            asks.sort_unstable_by(|a, b| self.cmp_cells(*a, *b));
        }
        for r in &asks {
            plan.push(Msg { to: self.cells[*r as usize].home, kind: Rc::new(Kind::Ask(self.ref_of(*r), self.role)) });
        }
        asks.clear();
        self.asks = asks;
    }
    fn load_of(&mut self, g: &Prep, refs: &[u32], first: u32) -> Box<[NEq]> {
        if !g.loads {
            return Box::new([]);
        }
        let mut load: Vec<u32> = Vec::new();
        let mut todo: Vec<u32> = refs.iter().rev().copied().collect();
        while let Some(r) = todo.pop() {
            let x = &self.cells[r as usize];
            if x.home != self.role || x.tag & !ASKED == MISSING || r == first || load.contains(&r) {
                continue;
            }
            load.push(r);
            if load.len() == 64 {
                break;
            }
            match x.tag {
                SAME => todo.push(x.a as u32),
                CON => {
                    let at = x.a as u32 as usize;
                    let n = g.spec.arity[(x.a >> 32) as usize] as usize;
                    todo.extend(self.pool[at..at + n].iter().rev());
                }
                _ => {}
            }
        }
        load.iter().map(|r| NEq { left: self.ref_of(*r), body: self.body_of(g, *r) }).collect()
    }
    fn body_refs(&self, g: &Prep, c: u32) -> Vec<u32> {
        if !g.loads {
            return Vec::new();
        }
        let x = &self.cells[c as usize];
        match x.tag {
            SAME => vec![x.a as u32],
            CON => {
                let at = x.a as u32 as usize;
                self.pool[at..at + g.spec.arity[(x.a >> 32) as usize] as usize].to_vec()
            }
            _ => Vec::new(),
        }
    }
    fn tell(&mut self, g: &Prep, c: u32, to: u8) -> Msg {
        let refs = self.body_refs(g, c);
        let load = self.load_of(g, &refs, c);
        Msg { to, kind: Rc::new(Kind::Tell(NEq { left: self.ref_of(c), body: self.body_of(g, c) }, load)) }
    }
    fn choose(&mut self, g: &Prep, name: &Name, rule: u16, args: &[Term], count: usize, src: &[u8], sent: &mut Vec<Msg>) -> (Answer, u32) {
        let n = self.find(name);
        if n == NONE || !self.nodes[n as usize].held {
            return (Answer::NotHere, n);
        }
        let d = &self.nodes[n as usize];
        if d.done != OPEN {
            return (Answer::Developed, n);
        }
        let p = &g.progs[rule as usize];
        if d.sort != p.sort {
            return (Answer::NotItsRule, n);
        }
        if count != p.params as usize {
            return (Answer::Arguments, n);
        }
        let deep = d.name.depth == 250 && !p.children.is_empty();
        match self.guard(n, p, src) {
            Guard::Yes if deep => (Answer::TooDeep, n),
            Guard::Yes => {
                self.develop(g, n, rule, p, args, src, sent);
                (Answer::Taken, n)
            }
            Guard::Waits(r) => (Answer::Waits(r), n),
            Guard::Differs(k) => (Answer::Differs(k), n),
        }
    }
    fn develop(&mut self, g: &Prep, n: u32, rule: u16, p: &Prog, args: &[Term], src: &[u8], sent: &mut Vec<Msg>) {
        // All memory first.
        let parts = args.len() + p.parts as usize;
        self.cells.reserve(parts + 8 * p.children.len());
        self.nodes.reserve(p.children.len());
        self.order.reserve(p.children.len());
        self.choices.reserve(1);
        self.pool.reserve(256 + 8 * p.children.len());
        self.asks.reserve(64);
        let (home, results) = (self.nodes[n as usize].home, self.nodes[n as usize].results);
        let base = self.cells.len() as u32;
        let mut v = p.pattern_vars as usize;
        self.stack.clear();
        for (k, t) in args.iter().enumerate() {
            let me = base + k as u32;
            match self.stack.pop() {
                Some(at) => self.pool[at as usize] = me,
                None => {
                    self.bind[v] = me;
                    v += 1;
                }
            }
            let (tag, a) = match *t {
                Term::Num(n) => (NUM, n),
                Term::Text(at, len) => (TEXT, self.keep_text(&src[at as usize..(at + len) as usize])),
                Term::Con(c, arity) => {
                    let at = self.pool.len();
                    self.pool.resize(at + arity as usize, 0);
                    self.stack.extend((at as u32..(at + arity as usize) as u32).rev());
                    (CON, (c as u64) << 32 | at as u64)
                }
                Term::Var(_) => (MISSING, 0),
            };
            self.cells.push(Cell { a, watch: 0, node: n, slot: PART | (k + 1) as u16, tag, home });
        }
        let fixed = self.cells.len() as u32;
        for k in 0..p.parts {
            self.cells.push(Cell { a: 0, watch: 0, node: n, slot: PART | (args.len() as u32 + k + 1) as u16, tag: MISSING, home });
        }
        // Parts of this node that others asked for before it was developed keep their watchers.
        let d = &mut self.nodes[n as usize];
        d.done = rule;
        d.parts = base;
        d.parts_len = parts as u16;
        let mut children = [0u32; 8];
        for (k, c) in p.children.iter().enumerate() {
            let name = self.nodes[n as usize].name.child(step_code(rule, k as u8 + 1));
            let m = match self.find(&name) {
                NONE => self.add_node(g, name, c.sort),
                m => m,
            };
            children[k] = m;
            for j in 0..c.gives as u32 {
                self.bind[v] = self.nodes[m as usize].results + j;
                v += 1;
            }
        }
        let bind = &self.bind;
        let value = |o: u16| if o < 64 { bind[o as usize] } else { fixed + o as u32 - 64 };
        for (k, c) in p.children.iter().enumerate() {
            self.nodes[children[k] as usize].inherited = self.pool.len() as u32;
            self.pool.extend(p.ops[c.ops as usize..][..c.takes as usize].iter().map(|o| value(*o)));
        }
        for e in &p.equations {
            let left = if e.left & RESULT != 0 { results + (e.left & !RESULT) as u32 } else { fixed + e.left as u32 };
            let a = match e.tag {
                SAME => value(p.ops[e.ops as usize]) as u64,
                CON => {
                    let at = self.pool.len() as u64;
                    self.pool.extend(p.ops[e.ops as usize..][..e.arity as usize].iter().map(|o| value(*o)));
                    (e.con as u64) << 32 | at
                }
                TEXT => {
                    let (at, len) = ((e.a >> 32) as usize, e.a as u32 as usize);
                    let at2 = self.texts.len();
                    self.texts.extend_from_slice(&src[at..at + len]);
                    (at2 as u64) << 32 | len as u64
                }
                _ => e.a,
            };
            let x = &mut self.cells[left as usize];
            x.tag = e.tag;
            x.a = a;
        }
        self.choices.push((n, rule));
        let mut plan = std::mem::take(&mut self.plan);
        for (k, c) in p.children.iter().enumerate() {
            if c.home == home {
                self.hold(children[k]);
            }
        }
        for (k, c) in p.children.iter().enumerate() {
            if c.home != home {
                let at = self.nodes[children[k] as usize].inherited as usize;
                let refs: Vec<u32> = if g.loads { self.pool[at..at + c.takes as usize].to_vec() } else { Vec::new() };
                let load = self.load_of(g, &refs, NONE);
                let inherited = NRefs::of(self, &self.pool[at..at + c.takes as usize]);
                let kind = Kind::Call(self.nodes[children[k] as usize].name.clone(), inherited, load);
                plan.push(Msg { to: c.home, kind: Rc::new(kind) });
            }
        }
        for r in results..results + g.spec.sort[p.sort as usize].gives as u32 {
            let mut watch = self.cells[r as usize].watch;
            while watch != 0 {
                let to = watch.trailing_zeros() as u8;
                watch &= watch - 1;
                plan.push(self.tell(g, r, to));
            }
        }
        for v in &p.mentioned {
            self.mention(self.bind[*v as usize]);
        }
        self.plan_asks(&mut plan);
        self.send(plan, sent);
    }
    fn send(&mut self, mut plan: Vec<Msg>, sent: &mut Vec<Msg>) {
        self.outbox.reserve(plan.len());
        sent.reserve(plan.len());
        for m in plan.drain(..) {
            sent.push(m.clone());
            self.outbox.push(m);
        }
        self.plan = plan;
    }
    // ---- messages
    /// The cells of an equation that came: its left side and, in the pool, the references of its body.
    fn come(&mut self, g: &Prep, e: &NEq) -> Option<(u32, u8, u64)> {
        let left = self.reference(g, &e.left)?;
        let (tag, a) = match &e.body {
            NBody::Same(r) => (SAME, self.reference(g, r)? as u64),
            NBody::Con(c, rs) => {
                let rs = rs.list();
                if g.spec.arity.get(*c as usize) != Some(&(rs.len() as u8)) {
                    return None;
                }
                let at = self.pool.len();
                for r in rs.iter() {
                    let k = self.reference(g, r)?;
                    self.pool.push(k);
                }
                (CON, (*c as u64) << 32 | at as u64)
            }
            NBody::Num(n) => (NUM, *n),
            NBody::Text(t) => {
                let b = t.bytes();
                let ok = b.len() >= 2 && b[1..b.len() - 1].iter().all(|c| is(*c, PLAIN) || *c == b'\\' || *c == b'"' || *c == b'n');
                if !ok {
                    return None;
                }
                (TEXT, self.keep_text(b))
            }
        };
        Some((left, tag, a))
    }
    fn same_body(&self, g: &Prep, c: u32, tag: u8, a: u64) -> bool {
        let x = &self.cells[c as usize];
        x.tag == tag
            && match tag {
                CON => {
                    let n = g.spec.arity[(a >> 32) as usize] as usize;
                    x.a >> 32 == a >> 32 && self.pool[x.a as u32 as usize..][..n] == self.pool[a as u32 as usize..][..n]
                }
                TEXT => self.text(x.a) == self.text(a),
                _ => x.a == a,
            }
    }
    /// Receives a message; true where it was new.
    fn receive(&mut self, g: &Prep, m: &Msg, sent: &mut Vec<Msg>) -> bool {
        if m.to != self.role {
            return false;
        }
        let (pool0, texts0) = (self.pool.len(), self.texts.len());
        let mut plan = std::mem::take(&mut self.plan);
        match &*m.kind {
            Kind::Ask(r, from) => {
                if *from == self.role || *from as usize >= g.spec.roles.len() {
                    return false;
                }
                let Some(c) = self.reference(g, r) else { return false };
                let x = &mut self.cells[c as usize];
                if x.home != self.role || x.watch >> from & 1 == 1 {
                    return false;
                }
                x.watch |= 1 << from;
                if x.tag & !ASKED != MISSING {
                    plan.push(self.tell(g, c, *from));
                }
            }
            Kind::Call(name, inherited, load) => {
                let inherited = inherited.list();
                let Some(n) = self.name(g, name) else { return false };
                let d = &self.nodes[n as usize];
                if d.home != self.role || inherited.len() != g.spec.sort[d.sort as usize].takes as usize {
                    return false;
                }
                match d.name.last() {
                    Some(s) if g.home[g.spec.rule[(s >> 4) as usize].sort as usize] != self.role => {}
                    _ => return false,
                }
                let at = self.pool.len();
                for r in inherited.iter() {
                    let Some(c) = self.reference(g, r) else { return false };
                    self.pool.push(c);
                }
                let held = self.nodes[n as usize].held;
                if held && load.is_empty() {
                    self.pool.truncate(at);
                    return false;
                }
                let mut new = !held;
                self.order.reserve(1);
                self.asks.reserve(64);
                let mut es = Vec::new();
                for e in load.iter() {
                    let Some(x) = self.come(g, e) else { return false };
                    es.push(x);
                }
                for (c, tag, a) in &es {
                    if self.cells[*c as usize].tag & !ASKED == MISSING {
                        new = true;
                        self.cells[*c as usize].tag = *tag;
                        self.cells[*c as usize].a = *a;
                    } else if !self.same_body(g, *c, *tag, *a) {
                        return false;
                    }
                }
                if !new {
                    return false;
                }
                if !held {
                    self.nodes[n as usize].inherited = at as u32;
                    self.hold(n);
                }
                for (c, _, _) in &es {
                    self.mention_body(g, *c);
                }
                for k in at..at + inherited.len() {
                    self.mention(self.pool[k]);
                }
                self.plan_asks(&mut plan);
            }
            Kind::Tell(e, load) => {
                let Some((c, tag, a)) = self.come(g, e) else { return false };
                let x = &self.cells[c as usize];
                if x.home == self.role {
                    return false;
                }
                if x.tag & !ASKED != MISSING && load.is_empty() {
                    // Conflict or repeat.
                    let _same = self.same_body(g, c, tag, a);
                    self.pool.truncate(pool0);
                    self.texts.truncate(texts0);
                    return false;
                }
                self.asks.reserve(64);
                let mut es = vec![];
                if !load.is_empty() {
                    for e in load.iter() {
                        let Some(x) = self.come(g, e) else { return false };
                        es.push(x);
                    }
                }
                let mut new = false;
                let mut put = |s: &mut Self, c: u32, tag: u8, a: u64| {
                    if s.cells[c as usize].tag & !ASKED == MISSING {
                        new = true;
                        s.cells[c as usize].tag = tag;
                        s.cells[c as usize].a = a;
                    }
                };
                put(self, c, tag, a);
                for (c, tag, a) in &es {
                    put(self, *c, *tag, *a);
                }
                if !new {
                    return false;
                }
                self.mention_body(g, c);
                for (c, _, _) in &es {
                    self.mention_body(g, *c);
                }
                self.plan_asks(&mut plan);
            }
        }
        self.send(plan, sent);
        true
    }
}

// ---- writing names

struct Written {
    name: Name,
    known: bool,
    text: Vec<u8>,
    ends: Vec<u16>,
}

struct RoleText {
    call: Short,
    ask: Short,
    tell: Short,
    from: Short,
    list: Short,
}
struct Texts {
    cons: Vec<Short>,
    sorts: Vec<Short>,
    rules: Vec<Short>,
}

const PLACES: usize = 128;

pub struct Writer {
    places: Vec<Written>,
    entries: Vec<(Name, u32, u32)>,
    names: Vec<u8>,
    texts: Texts,
    roles: Vec<RoleText>,
    pub out: Out,
}

impl Writer {
    /// Where the text of a short name stands among the names, and its length.
    #[inline]
    fn know(&mut self, n: &Name) -> (usize, usize) {
        let guess = n.text.get();
        if let Some(e) = self.entries.get(guess as usize)
            && e.0.same(n)
        {
            return (e.1 as usize, e.2 as usize);
        }
        self.learn_short(n)
    }
    #[inline(never)]
    fn learn_short(&mut self, n: &Name) -> (usize, usize) {
        let at = self.names.len() - 48;
        self.names.resize(at + 96 + 64 + 24 + 70 * n.depth as usize, 0);
        let mut t = Out48 { b: &mut self.names, len: at };
        t.short(&self.texts.sorts[n.start as usize]);
        t.byte(b'#');
        t.num(n.case);
        let mut code = n.code;
        for _ in 0..n.depth {
            let x = (code >> 112) as u16;
            code <<= 16;
            t.byte(b'/');
            t.short(&self.texts.rules[(x >> 4) as usize]);
            t.byte(b'.');
            t.byte(b'0' + (x & 15) as u8);
        }
        let end = t.len;
        self.names.truncate(end + 48);
        n.text.set(self.entries.len() as u32);
        self.entries.push((n.clone(), at as u32, (end - at) as u32));
        (at, end - at)
    }
    #[inline(never)]
    fn learn(&mut self, n: &Name) -> usize {
        let w = &mut self.places[n.case as usize % PLACES];
        let common = if w.known && w.name.start == n.start && w.name.case == n.case {
            w.name.with_steps(|a| n.with_steps(|b| a.iter().zip(b).take_while(|(x, y)| x == y).count()))
        } else {
            w.ends.clear();
            w.text.clear();
            w.text.resize(16 + 64 + 24, 0);
            let mut t = Out48 { b: &mut w.text, len: 0 };
            t.short(&self.texts.sorts[n.start as usize]);
            t.byte(b'#');
            t.num(n.case);
            let len = t.len;
            w.ends.push(len as u16);
            0
        };
        w.ends.truncate(common + 1);
        let mut len = *w.ends.last().unwrap() as usize;
        n.with_steps(|s| {
            for x in &s[common..] {
                if w.text.len() < len + 160 {
                    w.text.resize(len * 2 + 160, 0);
                }
                let mut t = Out48 { b: &mut w.text, len };
                t.byte(b'/');
                t.short(&self.texts.rules[(x >> 4) as usize]);
                t.byte(b'.');
                t.byte(b'0' + (x & 15) as u8);
                len = t.len;
                w.ends.push(len as u16);
            }
        });
        if w.text.len() < len + 48 {
            w.text.resize(len + 48, 0);
        }
        w.name = n.clone();
        w.known = true;
        n.case as usize % PLACES
    }
    #[inline]
    fn put_name(&mut self, n: &Name) {
        if n.depth as usize <= FEW {
            let (at, len) = self.know(n);
            return self.out.slice(&self.names, at, len);
        }
        let k = self.learn(n);
        let w = &self.places[k];
        let len = w.ends[n.depth as usize] as usize;
        self.out.slice(&w.text, 0, len);
    }
    #[inline]
    fn put_ref(&mut self, r: &NRef) {
        self.put_slot_of(&r.name, r.slot)
    }
    #[inline]
    fn put_slot_of(&mut self, n: &Name, slot: u16) {
        let kind = if slot & PART != 0 { b'p' } else { b'r' };
        if n.depth as usize <= FEW {
            let (at, len) = self.know(n);
            if len <= 48 {
                return self.out.reference_to(&self.names, at, len, kind, slot & !PART);
            }
            self.out.push(&self.names[at..at + len]);
            self.out.lit(&[b':', kind]);
            return self.out.num((slot & !PART) as u64);
        }
        let k = self.learn(n);
        let w = &self.places[k];
        let len = w.ends[n.depth as usize] as usize;
        if len <= 48 {
            self.out.reference_to(&w.text, 0, len, kind, slot & !PART);
        } else {
            self.out.push(&w.text[..len]);
            self.out.lit(&[b':', kind]);
            self.out.num((slot & !PART) as u64);
        }
    }
    fn put_refs(&mut self, rs: &[NRef]) {
        for (k, r) in rs.iter().enumerate() {
            if k > 0 {
                self.out.lit(b", ");
            }
            self.put_ref(r);
        }
    }
    fn put_equation(&mut self, e: &NEq) {
        self.put_ref(&e.left);
        self.out.lit(b" = ");
        match &e.body {
            NBody::Same(r) => self.put_ref(r),
            NBody::Con(c, rs) => {
                let rs = rs.list();
                self.out.short(&self.texts.cons[*c as usize]);
                if !rs.is_empty() {
                    self.out.byte(b'(');
                    self.put_refs(rs);
                    self.out.byte(b')');
                }
            }
            NBody::Num(n) => self.out.num(*n),
            NBody::Text(t) => self.out.push(t.bytes()),
        }
    }
    fn put_load(&mut self, l: &[NEq]) {
        for (i, e) in l.iter().enumerate() {
            if i == 0 {
                self.out.lit(b" with ");
            } else {
                self.out.lit(b"; ");
            }
            self.put_equation(e);
        }
    }
    fn put_sent(&mut self, k: usize, m: &Msg) {
        self.out.lit(b"sent ");
        self.out.num(k as u64);
        match &*m.kind {
            Kind::Call(n, rs, load) => {
                self.out.short(&self.roles[m.to as usize].call);
                self.put_name(n);
                self.out.lit(b" (");
                self.put_refs(rs.list());
                self.out.byte(b')');
                self.put_load(load);
            }
            Kind::Ask(r, from) => {
                self.out.short(&self.roles[m.to as usize].ask);
                self.put_ref(r);
                return self.out.short(&self.roles[*from as usize].from);
            }
            Kind::Tell(e, load) => {
                self.out.short(&self.roles[m.to as usize].tell);
                self.put_equation(e);
                self.put_load(load);
            }
        }
        self.out.byte(b'\n');
    }
}

struct Out48<'a> {
    b: &'a mut Vec<u8>,
    len: usize,
}
impl Out48<'_> {
    fn short(&mut self, t: &Short) {
        let n = t.bytes().len();
        self.b[self.len..self.len + n].copy_from_slice(t.bytes());
        self.len += n;
    }
    fn byte(&mut self, x: u8) {
        self.b[self.len] = x;
        self.len += 1;
    }
    fn num(&mut self, n: u64) {
        let digits = if n == 0 { 1 } else { n.ilog10() as usize + 1 };
        let mut m = n;
        for i in (0..digits).rev() {
            self.b[self.len + i] = b'0' + (m % 10) as u8;
            m /= 10;
        }
        self.len += digits;
    }
}

// ---- reading names: the last name of each of some cases

struct ReadName {
    start: u16,
    case: u64,
    known: bool,
    at: usize,
    steps: Vec<u16>,
    /// Sort and end of each front.
    fronts: Vec<(u16, u32)>,
}

pub struct World {
    src: &'static [u8],
    g: &'static Prep,
    plain: bool,
    sites: Vec<Site>,
    msgs: Vec<Msg>,
    gone: Vec<bool>,
    first: usize,
    undelivered: u64,
    taken: Vec<(Name, u16)>,
    pub w: Writer,
    reads: Vec<ReadName>,
}

impl World {
    pub fn new(src: &'static [u8], spec: &'static Spec, loads: bool, plain: bool) -> Self {
        let home: Vec<u8> = spec.sort.iter().map(|s| if plain { 0 } else { s.role as u8 }).collect();
        let progs: Vec<Prog> = spec.rule.iter().map(|r| prepare(spec, r, &home)).collect();
        let line = |a: &str, n: &'static [u8], b: &str| Short::new(&[a.as_bytes(), n, b.as_bytes()]);
        let names = |n: &Names| n.list.iter().map(|n| Short::new(&[n])).collect::<Vec<_>>();
        let texts = Texts { cons: names(&spec.cons), sorts: names(&spec.sorts), rules: names(&spec.rules) };
        let roles: Vec<RoleText> = (spec.roles.list.iter())
            .map(|n| RoleText {
                call: line(" to ", n, " call "),
                ask: line(" to ", n, " ask "),
                tell: line(" to ", n, " tell "),
                from: line(" from ", n, "\n"),
                list: line("list ", n, "\n"),
            })
            .collect();
        let k = if plain { 1 } else { spec.roles.len().max(1) };
        World {
            src,
            g: Box::leak(Box::new(Prep { spec, progs, home, loads })),
            plain,
            sites: (0..k).map(|r| Site::new(r as u8)).collect(),
            msgs: Vec::new(),
            gone: Vec::new(),
            first: 0,
            undelivered: 0,
            taken: Vec::new(),
            w: Writer {
                places: (0..PLACES).map(|_| Written { name: Name::root(0, 0), known: false, text: Vec::new(), ends: Vec::new() }).collect(),
                entries: Vec::new(),
                names: vec![0; 48],
                texts,
                roles,
                out: Out::new(),
            },
            reads: (0..PLACES).map(|_| ReadName { start: 0, case: 0, known: false, at: 0, steps: Vec::new(), fronts: Vec::new() }).collect(),
        }
    }
    /// The name of the last `choose`.
    fn named(&mut self, s: &Sched) -> Name {
        let r = &mut self.reads[s.base as usize];
        let text = &self.src[s.name.0..s.name.1];
        let depth = s.base_depth;
        if s.base_len == 0 {
            r.steps.clear();
            r.fronts.clear();
            let e = text.iter().position(|b| *b == b'/').unwrap_or(text.len());
            r.fronts.push((s.start, e as u32));
        } else {
            r.steps.truncate(depth as usize);
            r.fronts.truncate(depth as usize + 1);
        }
        r.start = s.start;
        r.case = s.case;
        r.known = true;
        r.at = s.name.0;
        let mut len = r.fronts.last().unwrap().1 as usize;
        for x in &s.steps {
            r.steps.push(step_code(x.rule, x.child));
            len += 3 + self.g.spec.rules.list[x.rule as usize].len();
            let sort = self.g.spec.rule[x.rule as usize].children[x.child as usize - 1].sort;
            r.fronts.push((sort, len as u32));
        }
        Name::of(s.start, s.case, &r.steps)
    }
    fn put_answer(&mut self, site: usize, a: &Answer, rule: u16) {
        let o = &mut self.w.out;
        match a {
            Answer::Known => o.lit(b"known"),
            Answer::NotHere => o.lit(b"unknown"),
            Answer::Developed => o.lit(b"developed"),
            Answer::NotItsRule => o.lit(b"wrong rule"),
            Answer::Arguments => o.lit(b"arguments"),
            Answer::Waits(r) => {
                o.lit(b"waits ");
                let x = &self.sites[site].cells[*r as usize];
                let n = &self.sites[site].nodes[x.node as usize].name;
                self.w.put_slot_of(n, x.slot);
            }
            Answer::Differs(op) => {
                o.lit(b"mismatch ");
                o.push(self.g.progs[rule as usize].places[*op as usize].as_bytes());
            }
            Answer::TooDeep => o.lit(b"deep"),
            Answer::Taken => o.lit(b"taken"),
        }
    }
    fn put_sent(&mut self, from: usize) {
        for k in from..self.msgs.len() {
            self.w.put_sent(k, &self.msgs[k]);
        }
        self.undelivered += (self.msgs.len() - from) as u64;
    }
    fn deliver(&mut self, k: usize) {
        let before = self.msgs.len();
        // The message is lent by a count while the list may grow.
        let m = self.msgs[k].clone();
        if self.gone.len() <= k {
            self.gone.resize(k + 1, false);
        }
        let new = self.sites[m.to as usize].receive(self.g, &m, &mut self.msgs);
        if !self.gone[k] {
            self.gone[k] = true;
            self.undelivered -= 1;
        }
        while self.first < self.gone.len() && self.gone[self.first] {
            self.first += 1;
        }
        let o = &mut self.w.out;
        o.lit(b"deliver ");
        o.num(k as u64);
        if new {
            o.lit(b": new\n");
        } else {
            o.lit(b": again\n");
        }
        self.put_sent(before);
    }
    fn list(&mut self, role: u16) {
        self.w.out.short(&self.w.roles[role as usize].list);
        let order = std::mem::take(&mut self.sites[role as usize].order);
        for &n in &order {
            let d = &self.sites[role as usize].nodes[n as usize];
            if d.done != OPEN {
                continue;
            }
            let (sort, deep) = (d.sort, d.name.depth == 250);
            for (rule, p) in self.g.progs.iter().enumerate().filter(|(_, p)| p.sort == sort) {
                self.w.out.lit(b"item ");
                self.w.put_name(&self.sites[role as usize].nodes[n as usize].name);
                self.w.out.byte(b' ');
                self.w.out.short(&self.w.texts.rules[rule]);
                self.w.out.byte(b' ');
                let a = match self.sites[role as usize].guard(n, p, self.src) {
                    Guard::Yes if deep && !p.children.is_empty() => Answer::TooDeep,
                    Guard::Yes => Answer::Taken,
                    Guard::Waits(r) => Answer::Waits(r),
                    Guard::Differs(k) => Answer::Differs(k),
                };
                match a {
                    Answer::Taken => self.w.out.lit(b"ready"),
                    a => self.put_answer(role as usize, &a, rule as u16),
                }
                self.w.out.byte(b'\n');
            }
        }
        self.sites[role as usize].order = order;
    }
}

impl Replayed for World {
    fn resume(&self, sort: u16, case: u64, name: &[u8]) -> Resume {
        let k = case as usize % PLACES;
        let r = &self.reads[k];
        if r.known && r.start == sort && r.case == case {
            let old = &self.src[r.at..r.at + r.fronts.last().unwrap().1 as usize];
            let same = common(old, name);
            for (i, (s, len)) in r.fronts.iter().enumerate().rev() {
                let len = *len as usize;
                if len <= same && !name.get(len).is_some_and(|b| *b != b'/' && is(*b, WORD)) {
                    return Resume { node: k as u32, sort: *s, depth: i as u8, len };
                }
            }
        }
        Resume { node: k as u32, sort, depth: 0, len: 0 }
    }

    fn event(&mut self, e: Event, s: &Sched) {
        match e {
            Event::Start { sort, case } => {
                let site = self.g.home[sort as usize] as usize;
                let a = self.sites[site].start(self.g, sort, case);
                let o = &mut self.w.out;
                o.lit(b"start ");
                o.short(&self.w.texts.sorts[sort as usize]);
                o.byte(b' ');
                o.num(case);
                match a {
                    Answer::Taken => {
                        self.taken.push((Name::root(sort, case), 0));
                        o.lit(b": taken\n")
                    }
                    _ => o.lit(b": known\n"),
                }
            }
            Event::Choose { rule } => {
                let name = self.named(s);
                let sort = match name.last() {
                    Some(x) => self.g.spec.rule[(x >> 4) as usize].children[(x & 15) as usize - 1].sort,
                    None => name.start,
                };
                let site = self.g.home[sort as usize] as usize;
                let before = self.msgs.len();
                let (a, _) = self.sites[site].choose(self.g, &name, rule, &s.args, s.count, self.src, &mut self.msgs);
                self.w.out.lit(b"choose ");
                self.w.put_name(&name);
                self.w.out.byte(b' ');
                self.w.out.short(&self.w.texts.rules[rule as usize]);
                self.w.out.lit(b": ");
                self.put_answer(site, &a, rule);
                self.w.out.byte(b'\n');
                if let Answer::Taken = a {
                    self.taken.push((name, rule));
                    self.put_sent(before);
                }
            }
            _ if self.plain => {}
            Event::Deliver(k) => {
                if k >= self.msgs.len() as u64 {
                    self.w.out.lit(b"deliver ");
                    self.w.out.num(k);
                    self.w.out.lit(b": no message\n");
                } else {
                    self.deliver(k as usize);
                }
            }
            Event::Settle => {
                let mut n = 0;
                while self.first < self.msgs.len() && !self.w.out.full {
                    self.deliver(self.first);
                    n += 1;
                }
                self.w.out.lit(b"settled ");
                self.w.out.num(n);
                self.w.out.byte(b'\n');
            }
            Event::List(role) => self.list(role),
        }
    }

    fn finish(&mut self) {
        if self.undelivered > 0 {
            self.w.out.lit(b"undelivered ");
            self.w.out.num(self.undelivered);
            return self.w.out.byte(b'\n');
        }
        self.w.out.lit(b"artifacts ");
        self.w.out.num(self.sites.iter().map(|s| s.order.len() as u64).sum());
        self.w.out.byte(b'\n');
        let mut at = vec![0usize; self.sites.len()];
        let mut memos: Vec<Vec<(u32, u32)>> = self.sites.iter().map(|s| vec![(0, 0); s.cells.len()]).collect();
        let mut todo = Vec::new();
        loop {
            let mut best: Option<usize> = None;
            for k in 0..self.sites.len() {
                if at[k] < self.sites[k].order.len() {
                    let n = &self.sites[k].nodes[self.sites[k].order[at[k]] as usize].name;
                    if best.is_none_or(|b| n.cmp(&self.sites[b].nodes[self.sites[b].order[at[b]] as usize].name) == Ordering::Less) {
                        best = Some(k);
                    }
                }
            }
            let Some(k) = best else { return };
            let n = self.sites[k].order[at[k]];
            at[k] += 1;
            row(self.g, &mut self.sites[k], &mut self.w, n, &mut memos[k], &mut todo);
            if self.w.out.full {
                return;
            }
        }
    }

    fn out(&self) -> &Out {
        &self.w.out
    }
}

fn row(g: &Prep, s: &mut Site, w: &mut Writer, n: u32, memo: &mut [(u32, u32)], todo: &mut Vec<OpenTerm>) {
    let d = &s.nodes[n as usize];
    w.put_name(&d.name);
    w.out.byte(b' ');
    let (done, inherited, results) = (d.done, d.inherited as usize, d.results);
    let (mut part, sort) = (d.parts, &g.spec.sort[d.sort as usize]);
    if done == OPEN {
        w.out.lit(b"open (");
    } else {
        w.out.short(&w.texts.rules[done as usize]);
        w.out.lit(b" {");
        for k in 0..g.progs[done as usize].params {
            if k > 0 {
                w.out.lit(b", ");
                let mut need = 1;
                while need > 0 {
                    let x = &s.cells[part as usize];
                    need -= 1;
                    if x.tag == CON {
                        need += g.spec.arity[(x.a >> 32) as usize] as usize;
                    }
                    part += 1;
                }
            }
            value(g, s, w, part, memo, todo);
        }
        w.out.lit(b"} (");
    }
    for i in 0..sort.takes as usize {
        if i > 0 {
            w.out.lit(b", ");
        }
        let r = s.pool[inherited + i];
        value(g, s, w, r, memo, todo);
    }
    w.out.lit(b") <");
    for j in 0..sort.gives as u32 {
        if j > 0 {
            w.out.lit(b", ");
        }
        value(g, s, w, results + j, memo, todo);
    }
    w.out.lit(b">\n");
}

struct OpenTerm {
    r: u32,
    from: u32,
    next: u32,
    end: u32,
}

fn head(g: &Prep, s: &mut Site, w: &mut Writer, r: u32, memo: &[(u32, u32)]) -> Option<OpenTerm> {
    let mut e = r;
    while s.cells[e as usize].tag == SAME {
        e = s.cells[e as usize].a as u32;
    }
    if e != r {
        // The way is shortened.
        let mut k = r;
        while s.cells[k as usize].tag == SAME {
            k = std::mem::replace(&mut s.cells[k as usize].a, e as u64) as u32;
        }
    }
    let x = &s.cells[e as usize];
    match x.tag {
        NUM => w.out.num(x.a),
        TEXT => {
            let (at, len) = ((x.a >> 32) as usize, x.a as u32 as usize);
            w.out.slice(&s.texts, at, len)
        }
        CON => {
            let con = (x.a >> 32) as usize;
            let n = g.spec.arity[con] as u32;
            if n == 0 {
                w.out.short(&w.texts.cons[con]);
                return None;
            }
            let (at, len) = memo[e as usize];
            if len > 0 {
                w.out.again(at as usize, len as usize);
                return None;
            }
            let from = w.out.len as u32;
            w.out.short(&w.texts.cons[con]);
            w.out.byte(b'(');
            return Some(OpenTerm { r: e, from, next: x.a as u32, end: x.a as u32 + n });
        }
        _ => {
            w.out.byte(b'?');
            w.put_slot_of(&s.nodes[x.node as usize].name, x.slot);
        }
    }
    None
}

fn value(g: &Prep, s: &mut Site, w: &mut Writer, r: u32, memo: &mut [(u32, u32)], open: &mut Vec<OpenTerm>) {
    let Some(mut top) = head(g, s, w, r, memo) else { return };
    open.clear();
    let mut first = true;
    loop {
        if w.out.full {
            return;
        }
        if top.next < top.end {
            if !first {
                w.out.lit(b", ");
            }
            let r = s.pool[top.next as usize];
            top.next += 1;
            first = false;
            if let Some(o) = head(g, s, w, r, memo) {
                open.push(std::mem::replace(&mut top, o));
                first = true;
            }
        } else {
            w.out.byte(b')');
            memo[top.r as usize] = (top.from, w.out.len as u32 - top.from);
            match open.pop() {
                Some(o) => top = o,
                None => return,
            }
            first = false;
        }
    }
}
