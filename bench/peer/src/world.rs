//! The world: sites of all roles over one table of equations.
//!
//! In a world each site's equations are a part of those of the taken choices (docs/MODEL.md), so
//! a body is kept once, with one bit per role for the sites that hold it.

use crate::lex::*;
use crate::out::*;
use crate::sched::*;
use crate::spec::*;
use std::cmp::Ordering;

const NONE: u32 = u32::MAX;
/// The longest name that is kept among the short ones.
const SHORT: u16 = 48;
pub const PART: u16 = 0x8000;

/// Bodies of equations.
pub const MISSING: u8 = 0;
pub const SAME: u8 = 1;
pub const CON: u8 = 2;
pub const NUM: u8 = 3;
pub const TEXT: u8 = 4;

/// A set of roles.
pub trait Mask: Copy + Default {
    fn has(self, role: u8) -> bool;
    fn add(&mut self, role: u8);
    fn bits(self) -> u64;
}

macro_rules! mask {
    ($t:ty) => {
        impl Mask for $t {
            #[inline(always)]
            fn has(self, role: u8) -> bool {
                self >> role & 1 == 1
            }
            #[inline(always)]
            fn add(&mut self, role: u8) {
                *self |= 1 << role;
            }
            #[inline(always)]
            fn bits(self) -> u64 {
                self as u64
            }
        }
    };
}
mask!(u16);
mask!(u64);

struct Ref<M> {
    /// Roles whose site holds the equation, that asked for it, and that watch it.
    known: M,
    asked: M,
    watch: M,
    /// Same: the reference. Con: constructor and place in the pool. Num: the number. Text: its span.
    a: u64,
    node: u32,
    slot: u16,
    tag: u8,
    home: u8,
}

struct Node {
    /// The parent, or the number of the root.
    parent: u32,
    root: u32,
    results: u32,
    /// Place of the inherited references in the pool.
    inherited: u32,
    children: u32,
    parts: u32,
    name_at: u32,
    states: u32,
    name_len: u16,
    sort: u16,
    /// The rule of the last step.
    by: u16,
    done: u16,
    child: u8,
    depth: u8,
    home: u8,
    held: bool,
}

const OPEN: u16 = u16::MAX;

struct Root {
    sort: u16,
    case: u64,
    node: u32,
    /// The node of the case that was named last.
    cursor: u32,
}

#[derive(Clone, Copy)]
struct Msg {
    /// A node for a Call, else a reference.
    id: u32,
    load_at: u32,
    load_len: u8,
    kind: u8,
    to: u8,
    /// The asker; of a delivered message the highest bit of `kind` is set.
    from: u8,
}

const CALL: u8 = 0;
const ASK: u8 = 1;
const TELL: u8 = 2;
const GONE: u8 = 0x80;

/// The text of one sort, constructor, rule or role.
type Name = &'static [u8];

pub struct Equation {
    /// A static part from 0, or `RESULT` and the result from 0.
    pub left: u16,
    pub tag: u8,
    pub arity: u8,
    pub con: u16,
    pub ops: u32,
    pub a: u64,
}

pub const RESULT: u16 = 0x8000;

pub struct ChildForm {
    pub sort: u16,
    pub home: u8,
    pub takes: u8,
    pub gives: u8,
    pub ops: u32,
}

/// A rule made ready: operands below 64 are variables, the others static parts.
pub struct Prog {
    pub sort: u16,
    pub all_vars: bool,
    pub takes: u8,
    pub pattern_vars: u8,
    pub params: u8,
    pub parts: u32,
    pub patterns: Vec<Term>,
    pub places: Vec<String>,
    pub equations: Vec<Equation>,
    pub ops: Vec<u16>,
    pub children: Vec<ChildForm>,
    /// Variables that stand in a body or in an argument of a child of this role.
    pub mentioned: Vec<u8>,
    pub foreign: bool,
}

struct RoleText {
    call: Short,
    ask: Short,
    tell: Short,
    from: Short,
    list: Short,
}

/// Names in fields of fixed size.
struct Texts {
    cons: Vec<Short>,
    sorts: Vec<Short>,
    rules: Vec<Short>,
}

enum Guard {
    Yes,
    Waits(u32),
    Differs(u32),
}

pub enum Answer {
    Known,
    NotHere,
    Developed,
    NotItsRule,
    Arguments,
    Waits(u32),
    Differs(u32),
    TooDeep,
    Taken,
}

/// `T`: whether the transcript is written.
pub struct World<const T: bool, M> {
    src: &'static [u8],
    spec: &'static Spec,
    progs: &'static [Prog],
    role_text: &'static [RoleText],
    texts: &'static Texts,
    home: Vec<u8>,
    loads: bool,
    plain: bool,
    nodes: Vec<Node>,
    refs: Vec<Ref<M>>,
    pool: Vec<u32>,
    roots: Vec<Root>,
    root_table: Vec<u32>,
    msgs: Vec<Msg>,
    load_refs: Vec<u32>,
    first: usize,
    undelivered: u64,
    held: u64,
    bind: [u32; 64],
    stack: Vec<u32>,
    asks: Vec<u32>,
    open_sorted: Vec<Vec<u32>>,
    open_new: Vec<Vec<u32>>,
    states: Vec<u32>,
    rules_of: Vec<Vec<u16>>,
    /// Short names of nodes, with `SHORT` bytes behind them.
    names: Vec<u8>,
    skip: Vec<u32>,
    stamp: Vec<u32>,
    stamp_now: u32,
    pub out: Out,
}

fn place_texts(spec: &Spec, r: &Rule) -> Vec<String> {
    let mut places = Vec::new();
    let mut p = 0;
    for i in 0..spec.sort[r.sort as usize].takes {
        let end = term_end(&r.patterns, p);
        let mut todo = vec![format!("{}", i + 1)];
        while p < end {
            let at = todo.pop().unwrap();
            if let Term::Con(_, n) = r.patterns[p] {
                todo.extend((1..=n).rev().map(|k| format!("{at}.{k}")));
            }
            places.push(at);
            p += 1;
        }
    }
    places
}

/// Makes the equations of a term whose own left side is `left`; parts are numbered in preorder.
fn flatten(ts: &[Term], p: &mut usize, left: Option<u16>, prog: &mut Prog, next: &mut u16) -> u16 {
    // Each open constructor: its equation and how many operands are still to come.
    let mut open: Vec<(usize, u8)> = Vec::new();
    let mut top = 0;
    let mut first = true;
    while first || !open.is_empty() {
        let t = ts[*p];
        *p += 1;
        let left = if first { left } else { None };
        let op = match t {
            Term::Var(v) if !first || left.is_none() => v as u16,
            _ => {
                let (left, op) = match left {
                    Some(l) => (l, 0),
                    None => {
                        *next += 1;
                        (*next - 1, 64 + *next - 1)
                    }
                };
                let mut e = Equation { left, tag: NUM, arity: 0, con: 0, ops: 0, a: 0 };
                match t {
                    Term::Num(n) => e.a = n,
                    Term::Text(at, len) => {
                        e.tag = TEXT;
                        e.a = (at as u64) << 32 | len as u64;
                    }
                    Term::Var(v) => {
                        e.tag = SAME;
                        e.ops = prog.ops.len() as u32;
                        prog.ops.push(v as u16);
                    }
                    Term::Con(c, n) => {
                        e.tag = CON;
                        e.con = c;
                        e.arity = n;
                        e.ops = prog.ops.len() as u32;
                        prog.ops.resize(prog.ops.len() + n as usize, 0);
                    }
                }
                prog.equations.push(e);
                op
            }
        };
        if first {
            top = op;
        } else {
            let (e, left) = open.last_mut().unwrap();
            let e = &prog.equations[*e];
            prog.ops[(e.ops + e.arity as u32 - *left as u32) as usize] = op;
            *left -= 1;
        }
        if let Term::Con(_, n) = t {
            open.push((prog.equations.len() - 1, n));
        }
        while open.last().is_some_and(|o| o.1 == 0) {
            open.pop();
        }
        first = false;
    }
    top
}

pub fn prepare(spec: &Spec, r: &Rule, home: &[u8]) -> Prog {
    let d = &spec.sort[r.sort as usize];
    let mut prog = Prog {
        sort: r.sort,
        all_vars: r.patterns.iter().all(|t| matches!(t, Term::Var(_))),
        takes: d.takes,
        pattern_vars: r.pattern_vars,
        params: r.params,
        parts: 0,
        patterns: r.patterns.clone(),
        places: place_texts(spec, r),
        equations: Vec::new(),
        ops: Vec::new(),
        children: Vec::new(),
        mentioned: Vec::new(),
        foreign: false,
    };
    let mut next = 0u16;
    let me = home[r.sort as usize];
    let mut mentioned = [false; 64];
    for c in &r.children {
        let cd = &spec.sort[c.sort as usize];
        let mut p = 0;
        let mut inherited = Vec::new();
        for _ in 0..cd.takes {
            inherited.push(flatten(&c.args, &mut p, None, &mut prog, &mut next));
        }
        if home[c.sort as usize] == me {
            inherited.iter().filter(|o| **o < 64).for_each(|o| mentioned[*o as usize] = true);
        } else {
            prog.foreign = true;
        }
        let ops = prog.ops.len() as u32;
        prog.ops.extend(inherited);
        prog.children.push(ChildForm { sort: c.sort, home: home[c.sort as usize], takes: cd.takes, gives: cd.gives, ops });
    }
    let mut p = 0;
    for j in 0..d.gives {
        flatten(&r.results, &mut p, Some(RESULT | j as u16), &mut prog, &mut next);
    }
    for e in &prog.equations {
        let n = match e.tag {
            SAME => 1,
            CON => e.arity as usize,
            _ => 0,
        };
        for o in &prog.ops[e.ops as usize..e.ops as usize + n] {
            if *o < 64 {
                mentioned[*o as usize] = true;
            }
        }
    }
    prog.mentioned = (0..64).filter(|v| mentioned[*v as usize]).collect();
    prog.parts = next as u32;
    prog
}

impl<const T: bool, M: Mask> World<T, M> {
    pub fn new(src: &'static [u8], spec: &'static Spec, loads: bool, plain: bool) -> Self {
        let home: Vec<u8> = spec.sort.iter().map(|s| if plain { 0 } else { s.role as u8 }).collect();
        let progs: Vec<Prog> = spec.rule.iter().map(|r| prepare(spec, r, &home)).collect();
        let line = |a: &str, n: Name, b: &str| Short::new(&[a.as_bytes(), n, b.as_bytes()]);
        let names = |n: &Names| n.list.iter().map(|n| Short::new(&[n])).collect::<Vec<_>>();
        let texts = Texts { cons: names(&spec.cons), sorts: names(&spec.sorts), rules: names(&spec.rules) };
        let role_text: Vec<RoleText> = (spec.roles.list.iter())
            .map(|n| RoleText {
                call: line(" to ", n, " call "),
                ask: line(" to ", n, " ask "),
                tell: line(" to ", n, " tell "),
                from: line(" from ", n, "\n"),
                list: line("list ", n, "\n"),
            })
            .collect();
        let mut rules_of = vec![Vec::new(); spec.sorts.len()];
        for (k, r) in spec.rule.iter().enumerate() {
            rules_of[r.sort as usize].push(k as u16);
        }
        let roles = spec.roles.len().max(1);
        World {
            src,
            spec,
            progs: Box::leak(progs.into_boxed_slice()),
            role_text: Box::leak(role_text.into_boxed_slice()),
            texts: Box::leak(Box::new(texts)),
            home,
            loads,
            plain,
            nodes: Vec::new(),
            refs: Vec::new(),
            pool: Vec::new(),
            roots: Vec::new(),
            root_table: vec![0; 64],
            msgs: Vec::new(),
            load_refs: Vec::new(),
            first: 0,
            undelivered: 0,
            held: 0,
            bind: [0; 64],
            stack: Vec::new(),
            asks: Vec::new(),
            open_sorted: vec![Vec::new(); roles],
            open_new: vec![Vec::new(); roles],
            states: Vec::new(),
            rules_of,
            names: vec![0; SHORT as usize],
            skip: Vec::new(),
            stamp: Vec::new(),
            stamp_now: 0,
            out: Out::new(),
        }
    }

    // ---- names and order

    fn root_slot(&self, sort: u16, case: u64) -> usize {
        let m = self.root_table.len() - 1;
        let h = ((case >> 4).wrapping_add((sort as u64) << 48)).wrapping_mul(0x9e37_79b9_7f4a_7c15);
        // Sixteen cases in turn share a line of the cache; the highest bits choose the line.
        let lines = self.root_table.len().trailing_zeros() - 4;
        let mut i = ((h >> (64 - lines)) as usize) << 4 | (case & 15) as usize;
        loop {
            let k = self.root_table[i];
            if k == 0 {
                return i;
            }
            let r = &self.roots[k as usize - 1];
            if r.case == case && r.sort == sort {
                return i;
            }
            i = (i + 1) & m;
        }
    }

    fn find_root(&self, sort: u16, case: u64) -> u32 {
        match self.root_table[self.root_slot(sort, case)] {
            0 => NONE,
            k => self.roots[k as usize - 1].node,
        }
    }

    fn add_root(&mut self, sort: u16, case: u64, node: u32) {
        self.roots.push(Root { sort, case, node, cursor: node });
        if self.roots.len() * 2 > self.root_table.len() {
            self.root_table = vec![0; self.root_table.len() * 4];
            for k in 0..self.roots.len() {
                let i = self.root_slot(self.roots[k].sort, self.roots[k].case);
                self.root_table[i] = k as u32 + 1;
            }
        } else {
            let i = self.root_slot(sort, case);
            self.root_table[i] = self.roots.len() as u32;
        }
    }

    fn cmp_nodes(&self, mut a: u32, mut b: u32) -> Ordering {
        if a == b {
            return Ordering::Equal;
        }
        let (x, y) = (&self.nodes[a as usize], &self.nodes[b as usize]);
        if x.root != y.root {
            let (r, s) = (&self.roots[x.root as usize], &self.roots[y.root as usize]);
            return (r.sort, r.case).cmp(&(s.sort, s.case));
        }
        let (dx, dy) = (x.depth, y.depth);
        for _ in dy..dx {
            a = self.nodes[a as usize].parent;
        }
        for _ in dx..dy {
            b = self.nodes[b as usize].parent;
        }
        if a == b {
            return dx.cmp(&dy);
        }
        loop {
            let (x, y) = (&self.nodes[a as usize], &self.nodes[b as usize]);
            if x.parent == y.parent {
                // One rule was taken on the parent.
                return x.child.cmp(&y.child);
            }
            (a, b) = (x.parent, y.parent);
        }
    }

    fn cmp_refs(&self, a: u32, b: u32) -> Ordering {
        let (x, y) = (&self.refs[a as usize], &self.refs[b as usize]);
        if x.node == y.node { x.slot.cmp(&y.slot) } else { self.cmp_nodes(x.node, y.node) }
    }

    // ---- texts

    #[inline]
    fn put_node(&mut self, n: u32) {
        let d = &self.nodes[n as usize];
        if d.name_at != NONE {
            self.put_name_at(d.name_at, d.name_len);
        } else {
            self.put_new_name(n);
        }
    }

    #[inline]
    fn put_name_at(&mut self, at: u32, len: u16) {
        if len <= SHORT {
            self.out.slice(&self.names, at as usize, len as usize);
        } else {
            self.out.again(at as usize, len as usize);
        }
    }

    /// Keeps the name that was written last, from `at` on: a short one among the short names,
    /// which stand close together, a long one where it stands in the output.
    fn keep_name(&mut self, n: u32, at: usize) {
        if self.out.full {
            return;
        }
        let name = &self.out.bytes()[at..];
        let d = &mut self.nodes[n as usize];
        d.name_len = name.len() as u16;
        d.name_at = at as u32;
        if d.name_len <= SHORT {
            let end = self.names.len() - SHORT as usize;
            d.name_at = end as u32;
            self.names.truncate(end);
            self.names.extend_from_slice(name);
            self.names.resize(end + name.len() + SHORT as usize, 0);
        }
    }

    fn name_of(&self, n: u32) -> &[u8] {
        let d = &self.nodes[n as usize];
        let from = if d.name_len <= SHORT { &self.names[..] } else { self.out.bytes() };
        &from[d.name_at as usize..][..d.name_len as usize]
    }

    /// Writes a name for the first time.
    fn put_new_name(&mut self, n: u32) {
        let at = self.out.len;
        let mut path = std::mem::take(&mut self.stack);
        path.clear();
        let mut k = n;
        loop {
            let d = &self.nodes[k as usize];
            if d.name_at != NONE {
                self.put_name_at(d.name_at, d.name_len);
                break;
            }
            if d.depth == 0 {
                let r = &self.roots[d.root as usize];
                self.out.short(&self.texts.sorts[r.sort as usize]);
                self.out.byte(b'#');
                self.out.num(r.case);
                path.push(k);
                break;
            }
            path.push(k);
            k = d.parent;
        }
        while let Some(k) = path.pop() {
            let d = &self.nodes[k as usize];
            if d.depth > 0 {
                self.out.byte(b'/');
                self.out.short(&self.texts.rules[d.by as usize]);
                self.out.lit(&[b'.', b'0' + d.child]);
            }
            self.keep_name(k, at);
        }
        self.stack = path;
    }

    #[inline]
    fn put_ref(&mut self, r: u32) {
        let x = &self.refs[r as usize];
        let (node, slot) = (x.node, x.slot);
        let d = &self.nodes[node as usize];
        let (at, n) = if d.name_at == NONE {
            // The name is written whole and stands there for the next time.
            self.put_new_name(node);
            self.out.lit(if slot & PART != 0 { b":p" } else { b":r" });
            return self.out.num((slot & !PART) as u64);
        } else {
            (d.name_at as usize, d.name_len as usize)
        };
        let kind = if slot & PART != 0 { b'p' } else { b'r' };
        if n <= SHORT as usize {
            self.out.reference_to(&self.names, at, n, kind, slot & !PART);
        } else {
            self.out.reference(at, n, kind, slot & !PART);
        }
    }

    fn put_refs(&mut self, at: usize, n: usize) {
        for k in 0..n {
            if k > 0 {
                self.out.lit(b", ");
            }
            self.put_ref(self.pool[at + k]);
        }
    }

    /// `REF = BODY`.
    fn put_equation(&mut self, r: u32) {
        self.put_ref(r);
        self.out.lit(b" = ");
        let x = &self.refs[r as usize];
        let a = x.a;
        match x.tag {
            SAME => self.put_ref(a as u32),
            CON => {
                let con = (a >> 32) as usize;
                self.out.short(&self.texts.cons[con]);
                let n = self.spec.arity[con] as usize;
                if n > 0 {
                    self.out.byte(b'(');
                    self.put_refs(a as u32 as usize, n);
                    self.out.byte(b')');
                }
            }
            NUM => self.out.num(a),
            _ => self.put_text(a),
        }
    }

    #[inline]
    fn put_text(&mut self, a: u64) {
        let (at, len) = ((a >> 32) as usize, a as u32 as usize);
        self.out.slice(self.src, at, len);
    }

    fn put_place(&mut self, rule: u16, op: u32) {
        self.out.push(self.progs[rule as usize].places[op as usize].as_bytes());
    }

    fn put_answer(&mut self, a: &Answer, rule: u16) {
        match a {
            Answer::Known => self.out.lit(b"known"),
            Answer::NotHere => self.out.lit(b"unknown"),
            Answer::Developed => self.out.lit(b"developed"),
            Answer::NotItsRule => self.out.lit(b"wrong rule"),
            Answer::Arguments => self.out.lit(b"arguments"),
            Answer::Waits(r) => {
                self.out.lit(b"waits ");
                self.put_ref(*r);
            }
            Answer::Differs(op) => {
                self.out.lit(b"mismatch ");
                self.put_place(rule, *op);
            }
            Answer::TooDeep => self.out.lit(b"deep"),
            Answer::Taken => self.out.lit(b"taken"),
        }
    }

    // ---- guards

    fn guard(&mut self, n: u32, p: &Prog) -> Guard {
        let d = &self.nodes[n as usize];
        let inherited = d.inherited as usize;
        let takes = p.takes as usize;
        if p.all_vars {
            self.bind[..takes].copy_from_slice(&self.pool[inherited..inherited + takes]);
            return Guard::Yes;
        }
        let me = d.home;
        self.stack.clear();
        self.stack.extend(self.pool[inherited..inherited + takes].iter().rev());
        let mut vars = 0;
        for (k, t) in p.patterns.iter().enumerate() {
            let r = self.stack.pop().unwrap();
            if let Term::Var(_) = t {
                self.bind[vars] = r;
                vars += 1;
                continue;
            }
            let mut e = r;
            let mut hops = 0;
            let (mut tag, mut a) = (MISSING, 0);
            loop {
                let x = &self.refs[e as usize];
                if !x.known.has(me) {
                    break;
                }
                (tag, a) = (x.tag, x.a);
                if tag != SAME {
                    break;
                }
                hops += 1;
                e = match self.skip.get(e as usize) {
                    Some(&s) if s != NONE && x.home == d.home => s,
                    _ => a as u32,
                };
                tag = MISSING;
            }
            if hops > 16 {
                Self::shorten(&self.refs, &mut self.skip, r, e, d.home);
            }
            if tag == MISSING {
                return Guard::Waits(e);
            }
            let same = match *t {
                Term::Num(n) => tag == NUM && a == n,
                Term::Text(at, len) => {
                    tag == TEXT && a as u32 == len && {
                        let b = (a >> 32) as usize;
                        self.src[b..b + len as usize] == self.src[at as usize..(at + len) as usize]
                    }
                }
                Term::Con(c, n) => {
                    let yes = tag == CON && (a >> 32) as u16 == c;
                    if yes {
                        let at = a as u32 as usize;
                        self.stack.extend(self.pool[at..at + n as usize].iter().rev());
                    }
                    yes
                }
                Term::Var(_) => true,
            };
            if !same {
                return Guard::Differs(k as u32);
            }
        }
        Guard::Yes
    }

    /// Notes shorter ways over the references of `home` on the way from `r` to `end`: there the
    /// home holds each equation, so its guards may jump.
    #[cold]
    fn shorten(refs: &[Ref<M>], skip: &mut Vec<u32>, r: u32, end: u32, home: u8) {
        skip.resize(refs.len(), NONE);
        let mut way = vec![r];
        while *way.last().unwrap() != end {
            let k = *way.last().unwrap();
            way.push(if skip[k as usize] != NONE && refs[k as usize].home == home { skip[k as usize] } else { refs[k as usize].a as u32 });
        }
        for i in (0..way.len() - 1).rev() {
            let (k, next) = (way[i] as usize, way[i + 1] as usize);
            if refs[k].home == home {
                let on = i + 2 < way.len() && refs[next].home == home;
                skip[k] = if on { skip[next] } else { next as u32 };
            }
        }
    }

    // ---- sending

    fn send(&mut self, kind: u8, id: u32, to: u8, from: u8) {
        let k = self.msgs.len();
        let load_at = self.load_refs.len();
        if self.loads && kind != ASK {
            self.make_load(kind, id);
        }
        let load_len = (self.load_refs.len() - load_at) as u8;
        self.msgs.push(Msg { id, load_at: load_at as u32, load_len, kind, to, from });
        self.undelivered += 1;
        if !T {
            return;
        }
        self.out.lit(b"sent ");
        self.out.num(k as u64);
        let text = &self.role_text[to as usize];
        match kind {
            CALL => {
                self.out.short(&text.call);
                self.put_node(id);
                self.out.lit(b" (");
                let d = &self.nodes[id as usize];
                let (at, n) = (d.inherited as usize, self.spec.sort[d.sort as usize].takes as usize);
                self.put_refs(at, n);
                self.out.byte(b')');
            }
            ASK => {
                self.out.short(&text.ask);
                self.put_ref(id);
                return self.out.short(&self.role_text[from as usize].from);
            }
            _ => {
                self.out.short(&text.tell);
                self.put_equation(id);
            }
        }
        for i in load_at..load_at + load_len as usize {
            if i == load_at {
                self.out.lit(b" with ");
            } else {
                self.out.lit(b"; ");
            }
            self.put_equation(self.load_refs[i]);
        }
        self.out.byte(b'\n');
    }

    /// The load of a message of the home of its sender, appended to `load_refs`.
    fn make_load(&mut self, kind: u8, id: u32) {
        self.stamp_now += 1;
        let now = self.stamp_now;
        self.stamp.resize(self.refs.len(), 0);
        let mut todo = std::mem::take(&mut self.stack);
        todo.clear();
        let from = if kind == CALL {
            let d = &self.nodes[id as usize];
            let (at, n) = (d.inherited as usize, self.spec.sort[d.sort as usize].takes as usize);
            todo.extend(self.pool[at..at + n].iter().rev());
            // The parent's home sends the call.
            self.nodes[d.parent as usize].home
        } else {
            self.stamp[id as usize] = now;
            self.body_refs(id, &mut todo);
            self.refs[id as usize].home
        };
        let start = self.load_refs.len();
        while let Some(r) = todo.pop() {
            let x = &self.refs[r as usize];
            if x.home != from || x.tag == MISSING || self.stamp[r as usize] == now {
                continue;
            }
            self.stamp[r as usize] = now;
            self.load_refs.push(r);
            if self.load_refs.len() - start == 64 {
                break;
            }
            self.body_refs(r, &mut todo);
        }
        self.stack = todo;
    }

    /// Pushes the references of a body, the first on top.
    #[inline]
    fn body_refs(&self, r: u32, to: &mut Vec<u32>) {
        let x = &self.refs[r as usize];
        match x.tag {
            SAME => to.push(x.a as u32),
            CON => {
                let n = self.spec.arity[(x.a >> 32) as usize] as usize;
                let at = x.a as u32 as usize;
                to.extend(self.pool[at..at + n].iter().rev());
            }
            _ => {}
        }
    }

    /// Notes a mentioned reference that has to be asked for.
    #[inline]
    fn mention(&mut self, r: u32, role: u8) {
        let x = &mut self.refs[r as usize];
        if x.home != role && !x.known.has(role) && !x.asked.has(role) {
            x.asked.add(role);
            self.asks.push(r);
        }
    }

    fn mention_body(&mut self, r: u32, role: u8) {
        let x = &self.refs[r as usize];
        match x.tag {
            SAME => self.mention(x.a as u32, role),
            CON => {
                let n = self.spec.arity[(x.a >> 32) as usize] as usize;
                let at = x.a as u32 as usize;
                for k in at..at + n {
                    self.mention(self.pool[k], role);
                }
            }
            _ => {}
        }
    }

    fn mention_inherited(&mut self, n: u32, role: u8) {
        let d = &self.nodes[n as usize];
        let at = d.inherited as usize;
        let takes = self.spec.sort[d.sort as usize].takes as usize;
        for k in at..at + takes {
            self.mention(self.pool[k], role);
        }
    }

    fn send_asks(&mut self, role: u8) {
        if self.asks.is_empty() {
            return;
        }
        let mut asks = std::mem::take(&mut self.asks);
        if asks.len() > 1 {
            asks.sort_unstable_by(|a, b| self.cmp_refs(*a, *b));
        }
        for r in &asks {
            let to = self.refs[*r as usize].home;
            self.send(ASK, *r, to, role);
        }
        asks.clear();
        self.asks = asks;
    }

    // ---- choices

    fn hold(&mut self, n: u32) {
        let d = &mut self.nodes[n as usize];
        d.held = true;
        self.held += 1;
        let role = d.home as usize;
        if !self.plain {
            self.open_new[role].push(n);
        }
    }

    pub fn start(&mut self, sort: u16, case: u64) -> Answer {
        if self.find_root(sort, case) != NONE {
            return Answer::Known;
        }
        let n = self.nodes.len() as u32;
        let root = self.roots.len() as u32;
        self.add_root(sort, case, n);
        let home = self.home[sort as usize];
        let results = self.refs.len() as u32;
        self.push_node(Node {
            parent: root,
            root,
            results,
            inherited: 0,
            children: 0,
            parts: 0,
            name_at: NONE,
            states: NONE,
            name_len: 0,
            sort,
            by: 0,
            done: OPEN,
            child: 0,
            depth: 0,
            home,
            held: false,
        });
        self.hold(n);
        Answer::Taken
    }

    /// Adds a node and its results.
    fn push_node(&mut self, d: Node) {
        let n = self.nodes.len() as u32;
        let home = d.home;
        for j in 1..=self.spec.sort[d.sort as usize].gives as u16 {
            self.refs.push(Ref { known: M::default(), asked: M::default(), watch: M::default(), a: 0, node: n, slot: j, tag: MISSING, home });
        }
        self.nodes.push(d);
    }

    /// Answers a choice and makes its equations and children; nothing is sent.
    fn choose(&mut self, n: u32, rule: u16, args: &[Term], count: usize) -> Answer {
        if n == NONE || !self.nodes[n as usize].held {
            return Answer::NotHere;
        }
        let d = &self.nodes[n as usize];
        if d.done != OPEN {
            return Answer::Developed;
        }
        let p: &'static Prog = &self.progs[rule as usize];
        if d.sort != p.sort {
            return Answer::NotItsRule;
        }
        if count != p.params as usize {
            return Answer::Arguments;
        }
        let deep = d.depth == 250 && !p.children.is_empty();
        match self.guard(n, p) {
            Guard::Yes if deep => Answer::TooDeep,
            Guard::Yes => {
                self.develop(n, rule, p, args);
                Answer::Taken
            }
            Guard::Waits(r) => Answer::Waits(r),
            Guard::Differs(k) => Answer::Differs(k),
        }
    }

    fn develop(&mut self, n: u32, rule: u16, p: &'static Prog, args: &[Term]) {
        let base = self.refs.len() as u32;
        let d = &mut self.nodes[n as usize];
        d.done = rule;
        d.parts = base;
        d.children = 0;
        let (home, root, depth, results) = (d.home, d.root, d.depth, d.results);
        let mut known = M::default();
        known.add(home);
        // Parts of the arguments.
        let mut v = p.pattern_vars as usize;
        self.stack.clear();
        let part = |k: u32, tag: u8, a: u64| Ref {
            known,
            asked: M::default(),
            watch: M::default(),
            a,
            node: n,
            slot: PART | (k + 1) as u16,
            tag,
            home,
        };
        for (k, t) in args.iter().enumerate() {
            // `stack` holds the places in the pool which the parts to come fill.
            let me = base + k as u32;
            match self.stack.pop() {
                Some(at) => self.pool[at as usize] = me,
                None => {
                    self.bind[v] = me;
                    v += 1;
                }
            }
            let (tag, a) = match *t {
                Term::Num(n) => (NUM, n),
                Term::Text(at, len) => (TEXT, (at as u64) << 32 | len as u64),
                Term::Con(c, arity) => {
                    let at = self.pool.len();
                    self.pool.resize(at + arity as usize, 0);
                    self.stack.extend((at as u32..(at + arity as usize) as u32).rev());
                    (CON, (c as u64) << 32 | at as u64)
                }
                Term::Var(_) => (MISSING, 0),
            };
            self.refs.push(part(k as u32, tag, a));
        }
        // Static parts, at first without bodies.
        let fixed = self.refs.len() as u32;
        for k in 0..p.parts {
            self.refs.push(part(args.len() as u32 + k, MISSING, 0));
        }
        // Children with their results, then their inherited references.
        let first = self.nodes.len() as u32;
        self.nodes[n as usize].children = first;
        for (k, c) in p.children.iter().enumerate() {
            let at = self.refs.len() as u32;
            self.push_node(Node {
                parent: n,
                root,
                results: at,
                inherited: 0,
                children: 0,
                parts: 0,
                name_at: NONE,
                states: NONE,
                name_len: 0,
                sort: c.sort,
                by: rule,
                done: OPEN,
                child: k as u8 + 1,
                depth: depth + (depth < 250) as u8,
                home: c.home,
                held: false,
            });
            for j in 0..c.gives as u32 {
                self.bind[v] = at + j;
                v += 1;
            }
        }
        let bind = &self.bind;
        let value = |o: u16| if o < 64 { bind[o as usize] } else { fixed + o as u32 - 64 };
        for (k, c) in p.children.iter().enumerate() {
            let ops = &p.ops[c.ops as usize..][..c.takes as usize];
            self.nodes[first as usize + k].inherited = self.pool.len() as u32;
            self.pool.extend(ops.iter().map(|o| value(*o)));
        }
        for e in &p.equations {
            let left = if e.left & RESULT != 0 { results + (e.left & !RESULT) as u32 } else { fixed + e.left as u32 };
            let a = match e.tag {
                SAME => value(p.ops[e.ops as usize]) as u64,
                CON => {
                    let at = self.pool.len() as u64;
                    self.pool.extend(p.ops[e.ops as usize..][..e.arity as usize].iter().map(|o| value(*o)));
                    (e.con as u64) << 32 | at
                }
                _ => e.a,
            };
            let x = &mut self.refs[left as usize];
            x.tag = e.tag;
            x.a = a;
            x.known = known;
        }
        if self.pool.len() >= NONE as usize || self.refs.len() >= NONE as usize {
            std::process::exit(10);
        }
    }

    /// What a taken choice sends: Calls, Tells of watched results, Asks.
    fn after_choice(&mut self, n: u32, p: &'static Prog) {
        let d = &self.nodes[n as usize];
        let (home, first, results) = (d.home, d.children, d.results);
        for (k, c) in p.children.iter().enumerate() {
            if c.home == home {
                self.hold(first + k as u32);
            }
        }
        if self.plain {
            return;
        }
        if p.foreign {
            for (k, c) in p.children.iter().enumerate() {
                if c.home != home {
                    self.send(CALL, first + k as u32, c.home, home);
                }
            }
        }
        for r in results..results + self.spec.sort[p.sort as usize].gives as u32 {
            let mut watch = self.refs[r as usize].watch.bits();
            while watch != 0 {
                let to = watch.trailing_zeros() as u8;
                watch &= watch - 1;
                self.send(TELL, r, to, home);
            }
        }
        for v in &p.mentioned {
            self.mention(self.bind[*v as usize], home);
        }
        self.send_asks(home);
    }

    pub fn choose_and_send(&mut self, n: u32, rule: u16, args: &[Term], count: usize) -> Answer {
        let a = self.choose(n, rule, args, count);
        if let Answer::Taken = a {
            self.after_choice(n, &self.progs[rule as usize]);
        }
        a
    }

    // ---- deliveries

    /// Delivers message `k`, which stands; true where it was new.
    fn deliver(&mut self, k: usize) -> bool {
        let m = self.msgs[k];
        let again = m.kind & GONE != 0;
        if !again {
            self.undelivered -= 1;
            self.msgs[k].kind |= GONE;
        }
        let kind = m.kind & !GONE;
        // A load may bring an equation before its Tell.
        let new = !again && (!self.loads || kind != TELL || self.brings(&m));
        if T {
            self.out.lit(b"deliver ");
            self.out.num(k as u64);
            if new {
                self.out.lit(b": new\n");
            } else {
                self.out.lit(b": again\n");
            }
        }
        if !new {
            return false;
        }
        match kind {
            CALL => {
                self.hold(m.id);
                self.learn_load(&m);
                self.mention_inherited(m.id, m.to);
                self.send_asks(m.to);
            }
            ASK => {
                let x = &mut self.refs[m.id as usize];
                x.watch.add(m.from);
                if x.tag != MISSING {
                    self.send(TELL, m.id, m.from, m.to);
                }
            }
            _ => {
                self.learn_load(&m);
                self.refs[m.id as usize].known.add(m.to);
                if m.load_len == 0 {
                    self.mention_body(m.id, m.to);
                } else {
                    self.mention_body(m.id, m.to);
                    self.mention_load(&m);
                }
                self.send_asks(m.to);
            }
        }
        true
    }

    fn brings(&self, m: &Msg) -> bool {
        let load = &self.load_refs[m.load_at as usize..][..m.load_len as usize];
        let lacks = |r: u32| !self.refs[r as usize].known.has(m.to);
        lacks(m.id) || load.iter().any(|r| lacks(*r))
    }

    /// Adds the equations of a load; what a Call mentions is noted after all are added.
    fn learn_load(&mut self, m: &Msg) {
        let range = m.load_at as usize..m.load_at as usize + m.load_len as usize;
        for i in range.clone() {
            self.refs[self.load_refs[i] as usize].known.add(m.to);
        }
        if m.kind & !GONE == CALL {
            self.mention_load(m);
        }
    }

    fn mention_load(&mut self, m: &Msg) {
        for i in m.load_at as usize..m.load_at as usize + m.load_len as usize {
            self.mention_body(self.load_refs[i], m.to);
        }
    }

    pub fn deliver_event(&mut self, k: u64) -> Option<bool> {
        if k >= self.msgs.len() as u64 {
            return None;
        }
        Some(self.deliver(k as usize))
    }

    fn first_undelivered(&mut self) -> Option<usize> {
        while self.first < self.msgs.len() && self.msgs[self.first].kind & GONE != 0 {
            self.first += 1;
        }
        (self.first < self.msgs.len()).then_some(self.first)
    }

    /// Delivers the first undelivered message until there is none; gives the deliveries.
    pub fn settle(&mut self) -> u64 {
        let mut n = 0;
        while let Some(k) = self.first_undelivered() {
            self.deliver(k);
            n += 1;
            if self.out.full {
                break;
            }
        }
        n
    }

    // ---- lists

    /// The open nodes of a role in order.
    fn open_nodes(&mut self, role: usize) -> Vec<u32> {
        let mut old = std::mem::take(&mut self.open_sorted[role]);
        let mut new = std::mem::take(&mut self.open_new[role]);
        let open = |n: &u32| self.nodes[*n as usize].done == OPEN;
        old.retain(open);
        new.retain(open);
        if new.is_empty() {
            return old;
        }
        new.sort_unstable_by(|a, b| self.cmp_nodes(*a, *b));
        if old.is_empty() {
            return new;
        }
        let mut all = Vec::with_capacity(old.len() + new.len());
        let mut i = 0;
        for n in new {
            let to = i + old[i..].partition_point(|o| self.cmp_nodes(*o, n) == Ordering::Less);
            all.extend_from_slice(&old[i..to]);
            i = to;
            all.push(n);
        }
        all.extend_from_slice(&old[i..]);
        all
    }

    fn list(&mut self, role: u16) {
        self.out.short(&self.role_text[role as usize].list);
        let open = self.open_nodes(role as usize);
        for &n in &open {
            if self.out.full {
                break;
            }
            let sort = self.nodes[n as usize].sort as usize;
            for i in 0..self.rules_of[sort].len() {
                let rule = self.rules_of[sort][i];
                self.out.lit(b"item ");
                self.put_node(n);
                self.out.byte(b' ');
                self.out.short(&self.texts.rules[rule as usize]);
                self.out.byte(b' ');
                match self.state(n, i, rule) {
                    Answer::Taken => self.out.lit(b"ready"),
                    a => self.put_answer(&a, rule),
                }
                self.out.byte(b'\n');
            }
        }
        self.open_sorted[role as usize] = open;
    }

    /// The state of rule `i` of an open node; a wait is tested again only where its reference came.
    fn state(&mut self, n: u32, i: usize, rule: u16) -> Answer {
        const READY: u32 = 1;
        const DEEP: u32 = 2;
        const WAIT: u32 = 3;
        const DIFFERS: u32 = 1 << 31;
        let d = &mut self.nodes[n as usize];
        let home = d.home;
        if d.states == NONE {
            d.states = self.states.len() as u32;
            let rules = self.rules_of[d.sort as usize].len();
            self.states.resize(self.states.len() + rules, 0);
        }
        let at = d.states as usize + i;
        let deep = d.depth == 250;
        match self.states[at] {
            0 => {}
            READY => return Answer::Taken,
            DEEP => return Answer::TooDeep,
            s if s & DIFFERS != 0 => return Answer::Differs(s & !DIFFERS),
            s => {
                let r = s - WAIT;
                if !self.refs[r as usize].known.has(home) {
                    return Answer::Waits(r);
                }
            }
        }
        let p = &self.progs[rule as usize];
        let (state, answer) = match self.guard(n, p) {
            Guard::Yes if deep && !p.children.is_empty() => (DEEP, Answer::TooDeep),
            Guard::Yes => (READY, Answer::Taken),
            Guard::Waits(r) => (WAIT + r, Answer::Waits(r)),
            Guard::Differs(k) => (DIFFERS | k, Answer::Differs(k)),
        };
        self.states[at] = state;
        answer
    }

    /// The open nodes of all sites in order; `kept` is the list of the call before.
    pub fn pending(&mut self, kept: &mut Vec<u32>) {
        kept.retain(|n| self.nodes[*n as usize].done == OPEN);
        for role in 0..self.open_new.len() {
            for n in std::mem::take(&mut self.open_new[role]) {
                if self.nodes[n as usize].done == OPEN {
                    let at = kept.partition_point(|o| self.cmp_nodes(*o, n) == Ordering::Less);
                    kept.insert(at, n);
                }
            }
        }
    }

    // ---- events

    /// Finds the node of the last `choose` of the schedule.
    fn find(&mut self, s: &Sched) -> u32 {
        let mut n = s.base;
        if n == NONE {
            return NONE;
        }
        for step in &s.steps {
            let d = &self.nodes[n as usize];
            if d.done != step.rule {
                return NONE;
            }
            n = d.children + step.child as u32 - 1;
        }
        let root = self.nodes[n as usize].root;
        self.roots[root as usize].cursor = n;
        n
    }

    pub fn counts(&self) -> (u64, u64) {
        (self.msgs.len() as u64, self.held)
    }

    pub fn sort_and_rules(&self, n: u32) -> &[u16] {
        &self.rules_of[self.nodes[n as usize].sort as usize]
    }

    pub fn params(&self, rule: u16) -> u8 {
        self.progs[rule as usize].params
    }

    // ---- artifacts

    /// Writes one line per held node, in order.
    pub fn artifacts(&mut self) {
        let mut roots: Vec<u32> = (0..self.roots.len() as u32).collect();
        roots.sort_unstable_by_key(|r| (self.roots[*r as usize].sort, self.roots[*r as usize].case));
        let mut memo: Vec<(u32, u32)> = vec![(0, 0); self.refs.len()];
        let mut todo: Vec<u32> = Vec::new();
        for r in roots {
            todo.push(self.roots[r as usize].node);
            while let Some(n) = todo.pop() {
                self.row(n, &mut memo);
                if self.out.full {
                    return;
                }
                let d = &self.nodes[n as usize];
                if d.done != OPEN {
                    let k = self.progs[d.done as usize].children.len() as u32;
                    todo.extend((d.children..d.children + k).rev());
                }
            }
        }
    }

    fn row(&mut self, n: u32, memo: &mut [(u32, u32)]) {
        self.put_node(n);
        self.out.byte(b' ');
        let d = &self.nodes[n as usize];
        let (done, inherited, results) = (d.done, d.inherited as usize, d.results);
        let (mut part, sort) = (d.parts, &self.spec.sort[d.sort as usize]);
        if done == OPEN {
            self.out.lit(b"open (");
        } else {
            self.out.short(&self.texts.rules[done as usize]);
            self.out.lit(b" {");
            for k in 0..self.progs[done as usize].params {
                if k > 0 {
                    self.out.lit(b", ");
                    part = self.symbols_end(part);
                }
                self.value(part, memo);
            }
            self.out.lit(b"} (");
        }
        for i in 0..sort.takes as usize {
            if i > 0 {
                self.out.lit(b", ");
            }
            self.value(self.pool[inherited + i], memo);
        }
        self.out.lit(b") <");
        for j in 0..sort.gives as u32 {
            if j > 0 {
                self.out.lit(b", ");
            }
            self.value(results + j, memo);
        }
        self.out.lit(b">\n");
    }

    /// The part after the symbols of the argument whose first symbol is `part`.
    fn symbols_end(&self, mut part: u32) -> u32 {
        let mut need = 1;
        while need > 0 {
            let x = &self.refs[part as usize];
            need -= 1;
            if x.tag == CON {
                need += self.spec.arity[(x.a >> 32) as usize] as usize;
            }
            part += 1;
        }
        part
    }

    /// Follows Same to its end and shortens the way.
    #[inline]
    fn resolve(&mut self, r: u32) -> u32 {
        let x = &self.refs[r as usize];
        if x.tag != SAME {
            return r;
        }
        let mut e = x.a as u32;
        if self.refs[e as usize].tag != SAME {
            return e;
        }
        while self.refs[e as usize].tag == SAME {
            e = self.refs[e as usize].a as u32;
        }
        let mut k = r;
        while self.refs[k as usize].tag == SAME {
            k = std::mem::replace(&mut self.refs[k as usize].a, e as u64) as u32;
        }
        e
    }

    /// Writes a value, but for the parts of a constructor: these are given as their range.
    #[inline]
    fn head(&mut self, r: u32, memo: &[(u32, u32)]) -> Option<Open> {
        let e = self.resolve(r);
        let x = &self.refs[e as usize];
        let a = x.a;
        match x.tag {
            NUM => self.out.num(a),
            TEXT => self.put_text(a),
            CON => {
                let con = (a >> 32) as usize;
                let n = self.spec.arity[con] as u32;
                if n == 0 {
                    self.out.short(&self.texts.cons[con]);
                    return None;
                }
                let (at, len) = memo[e as usize];
                if len > 0 {
                    self.out.again(at as usize, len as usize);
                    return None;
                }
                let from = self.out.len as u32;
                self.out.short(&self.texts.cons[con]);
                self.out.byte(b'(');
                return Some(Open { r: e, from, next: a as u32, end: a as u32 + n });
            }
            _ => {
                self.out.byte(b'?');
                self.put_ref(e);
            }
        }
        None
    }

    /// Writes the tree of a reference, without recursion; what was written once is copied.
    fn value(&mut self, r: u32, memo: &mut [(u32, u32)]) {
        let Some(mut top) = self.head(r, memo) else {
            return;
        };
        let mut open: Vec<Open> = Vec::new();
        let mut first = true;
        loop {
            if self.out.full {
                return;
            }
            if top.next < top.end {
                if !first {
                    self.out.lit(b", ");
                }
                let r = self.pool[top.next as usize];
                top.next += 1;
                first = false;
                if let Some(o) = self.head(r, memo) {
                    open.push(std::mem::replace(&mut top, o));
                    first = true;
                }
            } else {
                self.out.byte(b')');
                memo[top.r as usize] = (top.from, self.out.len as u32 - top.from);
                match open.pop() {
                    Some(o) => top = o,
                    None => return,
                }
                first = false;
            }
        }
    }
}

impl<M: Mask> Replayed for World<true, M> {
    fn resume(&self, sort: u16, case: u64, name: &[u8]) -> Resume {
        let slot = self.root_table[self.root_slot(sort, case)];
        if slot == 0 {
            return Resume { node: NONE, sort, depth: 0, len: 0 };
        }
        let root = &self.roots[slot as usize - 1];
        let mut n = root.cursor;
        let d = &self.nodes[n as usize];
        if d.name_at != NONE {
            let same = common(self.name_of(n), name);
            loop {
                let d = &self.nodes[n as usize];
                let len = d.name_len as usize;
                if d.name_at != NONE && len <= same && !name.get(len).is_some_and(|b| *b != b'/' && is(*b, WORD)) {
                    return Resume { node: n, sort: d.sort, depth: d.depth, len };
                }
                if d.depth == 0 {
                    break;
                }
                n = d.parent;
            }
        }
        Resume { node: root.node, sort, depth: 0, len: 0 }
    }

    fn event(&mut self, e: Event, s: &Sched) {
        match e {
            Event::Start { sort, case } => {
                self.out.lit(b"start ");
                self.out.short(&self.texts.sorts[sort as usize]);
                self.out.byte(b' ');
                self.out.num(case);
                match self.start(sort, case) {
                    Answer::Taken => self.out.lit(b": taken\n"),
                    _ => self.out.lit(b": known\n"),
                }
            }
            Event::Choose { rule } => {
                let n = self.find(s);
                self.out.lit(b"choose ");
                let at = self.out.len;
                self.out.slice(self.src, s.name.0, s.name.1 - s.name.0);
                if n != NONE && self.nodes[n as usize].name_at == NONE {
                    self.keep_name(n, at);
                }
                self.out.byte(b' ');
                self.out.short(&self.texts.rules[rule as usize]);
                self.out.lit(b": ");
                let a = self.choose(n, rule, &s.args, s.count);
                self.put_answer(&a, rule);
                self.out.byte(b'\n');
                if let Answer::Taken = a {
                    self.after_choice(n, &self.progs[rule as usize]);
                }
            }
            _ if self.plain => {}
            Event::Deliver(k) => {
                if self.deliver_event(k).is_none() {
                    self.out.lit(b"deliver ");
                    self.out.num(k);
                    self.out.lit(b": no message\n");
                }
            }
            Event::Settle => {
                let n = self.settle();
                self.out.lit(b"settled ");
                self.out.num(n);
                self.out.byte(b'\n');
            }
            Event::List(role) => self.list(role),
        }
    }

    fn finish(&mut self) {
        if self.undelivered > 0 {
            self.out.lit(b"undelivered ");
            self.out.num(self.undelivered);
            return self.out.byte(b'\n');
        }
        self.out.lit(b"artifacts ");
        self.out.num(self.held);
        self.out.byte(b'\n');
        self.artifacts();
    }

    fn out(&self) -> &Out {
        &self.out
    }
}

struct Open {
    r: u32,
    from: u32,
    next: u32,
    end: u32,
}
