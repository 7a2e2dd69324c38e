//! Terms as a run writes them, and what typed generation must compute on them.
//! This is the generator's own: it knows nothing of the source's code. The kinds
//! stand in kinds.rs.
pub use crate::kinds::*;
use Interval::Dim;
use Term::V;

/// A part of a node; an annotation is hidden.
pub enum Part<'a> {
    Number(usize),
    Term(&'a Term),
    Hidden(&'a Term),
    Interval(&'a Interval),
}

impl Part<'_> {
    fn write(&self, out: &mut Vec<u8>) {
        match self {
            Part::Number(n) => out.push(byte(*n)),
            Part::Term(t) | Part::Hidden(t) => t.write(out),
            Part::Interval(r) => r.write(out),
        }
    }

    fn alike(&self, other: &Self) -> bool {
        match (self, other) {
            (Part::Number(m), Part::Number(n)) => m == n,
            (Part::Term(t), Part::Term(u)) => t.alike(u),
            (Part::Interval(r), Part::Interval(s)) => r == s,
            _ => true,
        }
    }
}

/// A number that no byte holds is sent as 255: out of every limit anyway.
fn byte(n: usize) -> u8 {
    n.min(255) as u8
}

fn write((kind, parts): (u8, Vec<Part<'_>>), out: &mut Vec<u8>) {
    out.push(kind);
    parts.iter().for_each(|part| part.write(out));
}

impl Interval {
    pub fn write(&self, out: &mut Vec<u8>) {
        write(self.parts(), out);
    }

    /// With each dimension put through `f`.
    fn map(&self, f: &dyn Fn(usize) -> Interval) -> Interval {
        match self {
            Dim(n) => f(*n),
            _ => self.with(&|r| r.map(f)),
        }
    }

    fn lifted(&self, by: usize) -> Interval {
        self.map(&|n| Dim(n + by))
    }
}

impl Term {
    pub fn write(&self, out: &mut Vec<u8>) {
        write(self.parts(), out);
    }

    /// With variables and dimensions put through `at`, which is told how many
    /// binders of each sort stand above.
    fn map(&self, k: usize, j: usize, at: &dyn At) -> Term {
        match self {
            V(n) => at.variable(*n, k, j),
            _ => self
                .with(&|t, variables, dimensions| t.map(k + variables, j + dimensions, at), &|r| {
                    r.map(&|n| at.dimension(n, j))
                }),
        }
    }

    /// Under one more variable; under `by` of them; under one more dimension.
    pub fn shift(&self) -> Term {
        self.lifted(1, 0)
    }
    pub fn lifted(&self, variables: usize, dimensions: usize) -> Term {
        self.map(0, 0, &Lift(variables, dimensions))
    }
    pub fn dshift(&self) -> Term {
        self.lifted(0, 1)
    }
    /// With a term for variable 0, an interval for dimension 0.
    pub fn subst(&self, r: &Term) -> Term {
        self.map(0, 0, &Replace(r))
    }
    pub fn dsubst(&self, r: &Interval) -> Term {
        self.map(0, 0, &Ends(r))
    }

    /// Whether two terms differ in annotations at most.
    pub fn alike(&self, other: &Term) -> bool {
        let ((kind, parts), (other, others)) = (self.parts(), other.parts());
        kind == other && parts.iter().zip(&others).all(|(part, other)| part.alike(other))
    }
}

trait At {
    fn variable(&self, n: usize, k: usize, j: usize) -> Term;
    fn dimension(&self, n: usize, j: usize) -> Interval;
}

struct Lift(usize, usize);

impl At for Lift {
    fn variable(&self, n: usize, k: usize, _: usize) -> Term {
        V(if n < k { n } else { n + self.0 })
    }
    fn dimension(&self, n: usize, j: usize) -> Interval {
        Dim(if n < j { n } else { n + self.1 })
    }
}

struct Replace<'a>(&'a Term);

impl At for Replace<'_> {
    fn variable(&self, n: usize, k: usize, j: usize) -> Term {
        match n.cmp(&k) {
            std::cmp::Ordering::Less => V(n),
            std::cmp::Ordering::Equal => self.0.lifted(k, j),
            std::cmp::Ordering::Greater => V(n - 1),
        }
    }
    fn dimension(&self, n: usize, _: usize) -> Interval {
        Dim(n)
    }
}

struct Ends<'a>(&'a Interval);

impl At for Ends<'_> {
    fn variable(&self, n: usize, _: usize, _: usize) -> Term {
        V(n)
    }
    fn dimension(&self, n: usize, j: usize) -> Interval {
        match n.cmp(&j) {
            std::cmp::Ordering::Less => Dim(n),
            std::cmp::Ordering::Equal => self.0.lifted(j),
            std::cmp::Ordering::Greater => Dim(n - 1),
        }
    }
}
