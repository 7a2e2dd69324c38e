//! The source's modules, edited at build time (see edits/), at their own paths,
//! so that their `super::` and `crate::` names mean here what they mean there.

// Edits leave whole functions in place that only the other profiles call.
#[allow(dead_code)]
pub mod ast {
    include!(concat!(env!("OUT_DIR"), "/ast.rs"));
}

#[allow(dead_code)]
pub mod producer {
    include!(concat!(env!("OUT_DIR"), "/producer.rs"));

    mod sigma {
        include!(concat!(env!("OUT_DIR"), "/sigma.rs"));
    }

    mod congruence {
        include!(concat!(env!("OUT_DIR"), "/congruence.rs"));
    }

    mod syntax {
        include!(concat!(env!("OUT_DIR"), "/syntax.rs"));
    }

    // Ours, below the source's module so that they see its private names.
    mod endpoints;
    mod heads;
    pub mod play;
    mod watched;
}
