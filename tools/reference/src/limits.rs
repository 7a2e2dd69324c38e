//! Refusals 23 and 5 to 7, before anything is walked.
use crate::reader::Call;
use crate::state::{Refusal, Result};
use crate::syntax::{Interval, Term};

const SCOPE: u32 = 33;
const DEPTH: u32 = 32;
const NODES: u32 = 10_000;
const INDEX: u32 = 32;

pub fn limits(call: &Call) -> Result<()> {
    if call.miscounted {
        return Err(Refusal(23));
    }
    if call.dimensions > SCOPE || call.context.len() > SCOPE as usize {
        return Err(Refusal(5));
    }
    let mut nodes = 0;
    call.context.iter().chain(&call.terms).try_for_each(|t| term(t, 0, &mut nodes))
}

/// A node's own 6, then its 7.
fn node(depth: u32, nodes: &mut u32, index: u32) -> Result<()> {
    *nodes += 1;
    if depth > DEPTH || *nodes > NODES {
        return Err(Refusal(6));
    }
    if index > INDEX {
        return Err(Refusal(7));
    }
    Ok(())
}

fn term(t: &Term, depth: u32, nodes: &mut u32) -> Result<()> {
    use Term::*;
    let index = if let U(n) | V(n) = t { *n } else { 0 };
    node(depth, nodes, index)?;
    let below = depth + 1;
    match t {
        U(_) | V(_) | Nat | Zero => Ok(()),
        Fst(a) | Snd(a) => term(a, below, nodes),
        Pi(a, b) | Lam(a, b) | App(a, b) | Plam(a, b) | Sigma(a, b) => {
            term(a, below, nodes)?;
            term(b, below, nodes)
        }
        Path(a, b, c) | Pair(a, b, c) => {
            term(a, below, nodes)?;
            term(b, below, nodes)?;
            term(c, below, nodes)
        }
        Papp(p, r) => {
            term(p, below, nodes)?;
            interval(r, below, nodes)
        }
    }
}

fn interval(r: &Interval, depth: u32, nodes: &mut u32) -> Result<()> {
    use Interval::*;
    let index = if let Dim(n) = r { *n } else { 0 };
    node(depth, nodes, index)?;
    match r {
        Zero | One | Dim(_) => Ok(()),
        Neg(a) => interval(a, depth + 1, nodes),
        Meet(a, b) | Join(a, b) => {
            interval(a, depth + 1, nodes)?;
            interval(b, depth + 1, nodes)
        }
    }
}
