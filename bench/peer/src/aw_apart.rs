//! `plain` and `replay` in plain Rust under the rules of the proved program: see `apart.rs`.

// The modules are those of the other program, which uses more of them.
#![allow(dead_code)]

mod accept;
mod apart;
mod input;
mod lex;
mod out;
mod sched;
mod spec;
mod world;

use input::*;

fn main() {
    let words: Vec<_> = std::env::args().skip(1).collect();
    let words: Vec<&str> = words.iter().map(|w| &w[..]).collect();
    let plain = match words[..] {
        ["replay"] => false,
        ["plain"] => true,
        _ => usage(),
    };
    let src = read_all();
    let a = accept_input(input(src));
    sched::replay(src, &a, apart::World::new(src, a.spec, a.spec.loads, plain))
}
