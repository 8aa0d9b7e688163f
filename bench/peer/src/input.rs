//! The input, and the specification at its beginning.
use crate::accept::*;
use crate::spec::*;
use std::io::{Read, Write};
use std::process::exit;

const INPUT: usize = 16_777_216;

/// Writes everything to standard output and ends with `status`.
pub fn finish(b: &[u8], status: i32) -> ! {
    let mut out = std::io::stdout().lock();
    if out.write_all(b).and_then(|_| out.flush()).is_err() {
        exit(8);
    }
    exit(status)
}

pub fn usage() -> ! {
    finish(b"usage\n", 2)
}

/// Line feeds kept behind the input, so that readers need no test for its end.
pub const PAD: usize = 64;

/// All bytes of standard input, with `PAD` line feeds behind them.
pub fn read_all() -> &'static [u8] {
    let mut v: Vec<u8> = Vec::with_capacity(INPUT + 1 + PAD);
    let mut stdin = std::io::stdin().lock().take(INPUT as u64 + 1);
    if stdin.read_to_end(&mut v).is_err() {
        exit(7);
    }
    if v.len() > INPUT {
        exit(11);
    }
    v.resize(v.len() + PAD, b'\n');
    v.leak()
}

/// The input without what stands behind it.
pub fn input(padded: &'static [u8]) -> &'static [u8] {
    &padded[..padded.len() - PAD]
}

pub struct Accepted {
    pub spec: &'static Spec,
    pub typed: Typed,
    pub graphs: Vec<Graph>,
    pub io: Io,
}

/// Reads and accepts the specification, or ends with its refusal.
pub fn accept_input(src: &'static [u8]) -> Accepted {
    let spec: &'static Spec = match read_spec(src) {
        Ok(s) => Box::leak(Box::new(s)),
        Err(b) => finish(format!("bad specification line {} {}\n", b.line, b.kind.text()).as_bytes(), 3),
    };
    let typed = match type_check(spec) {
        Ok(t) => t,
        Err(what) => finish(format!("bad types {what}\n").as_bytes(), 15),
    };
    let graphs: Vec<Graph> = spec.rule.iter().map(|r| graph(spec, r)).collect();
    let io = io_from(spec, &graphs, &|_| true, &empty_io(spec));
    for (r, g) in graphs.iter().enumerate() {
        if let Some(o) = circle(spec, g, &io) {
            let name = String::from_utf8_lossy(spec.rules.list[r]);
            finish(format!("circular {name} at {}\n", occ_text(o)).as_bytes(), 4);
        }
    }
    Accepted { spec, typed, graphs, io }
}
