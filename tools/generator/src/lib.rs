//! Runs to compare by: `case(terms, seed, place)` is one of endlessly many,
//! `seeds(terms)` are those written by hand.
mod bench;
mod calls;
mod damage;
mod edges;
mod ends;
mod heads;
mod kinds;
mod large;
mod many;
mod meeting;
mod pairs;
mod random;
mod runs;
mod seeds;
mod shapes;
mod term;
mod typed;

pub use bench::case as bench;
pub use calls::Case;
pub use random::{Random, Terms};
pub use runs::{case, short, sweep};

pub fn seeds(terms: Terms) -> Vec<Case> {
    match terms {
        Terms::Plain => seeds::cases(),
        Terms::Pairs => pairs::cases(),
        Terms::Many => many::cases(),
        Terms::Ends => ends::cases(),
        Terms::Heads => heads::cases(),
    }
}
