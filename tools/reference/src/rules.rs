//! The rules' numbers: document 01's list, then those of each request as
//! document 02 names them.

/// Groups of names: what stands before the dot, and what after.
const GROUPS: [(&str, &str); 23] = [
    ("ctx", "nil cons"),
    ("dshiftctx", "nil cons"),
    ("lookup", "z s"),
    ("lt", "z s"),
    ("le", "z s"),
    ("max", "z sz ss"),
    ("interval", "0 1 dim neg meet join"),
    ("ishift", "0 1 dim.lt dim.ge neg meet join"),
    ("isubst", "0 1 dim.hit dim.lt dim.gt neg meet join"),
    ("shift", "u nat zero v.lt v.ge pi lam app path plam papp"),
    ("subst", "u nat zero v.hit v.lt v.gt pi lam app path plam papp"),
    ("dshift", "u nat zero v pi lam app path plam papp"),
    ("dsubst", "u nat zero v pi lam app path plam papp"),
    ("type", "u nat zero v pi lam app path plam papp conv"),
    ("eq", "refl sym trans beta pbeta p0 p1"),
    // Request 1.
    ("type", "sigma pair fst snd"),
    ("eq", "fst-beta snd-beta"),
    ("shift", "sigma pair fst snd"),
    ("subst", "sigma pair fst snd"),
    ("dshift", "sigma pair fst snd"),
    ("dsubst", "sigma pair fst snd"),
    // Request 5.
    ("iend", "0 1 neg meet join"),
    // Requests 5 and 9.
    ("eq", "p0-val p1-val app-cong papp-cong"),
];

/// A rule's number.
pub fn number(name: &str) -> usize {
    let names = GROUPS
        .iter()
        .flat_map(|(before, after)| after.split(' ').map(move |after| format!("{before}.{after}")));
    let place = names.into_iter().position(|n| n == name);
    place.unwrap_or_else(|| panic!("no rule is named {name}"))
}

#[cfg(test)]
mod tests {
    use super::number;

    #[test]
    fn the_last_of_each_document_and_request() {
        assert_eq!(number("eq.p1"), 94);
        assert_eq!(number("type.sigma"), 95);
        assert_eq!(number("dsubst.snd"), 116);
        assert_eq!(number("eq.p1-val"), 123);
        assert_eq!(number("eq.papp-cong"), 125);
    }
}
