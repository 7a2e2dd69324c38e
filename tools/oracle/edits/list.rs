//! The edits, all of them: what is done to the source's five files to make
//! them the oracle. Function bodies stay as they are but for the lines below.
use crate::editing::Edit::{Cut, CutCall, CutElse, Each, Put, Refuse};
use crate::editing::Step;

/// A source file, the name of its edited copy, and its edits.
pub const FILES: &[(&str, &str, &[Step])] = &[
    ("src/cubical/ast.rs", "ast.rs", AST),
    ("src/cubical/producer/syntax.rs", "syntax.rs", SYNTAX),
    ("src/cubical/producer.rs", "producer.rs", PRODUCER),
    ("src/cubical/producer/sigma.rs", "sigma.rs", SIGMA),
    ("src/cubical/producer/congruence.rs", "congruence.rs", CONGRUENCE),
];

const AST: &[Step] = &[
    // A file that is included can't start with a comment on its module.
    Step("", Put("//! Annotated", "// Annotated")),
    Step("", Put("//! from object", "// from object")),
    // Faces, definitions and systems are no part of the profile.
    Step("", Cut("pub enum Face {")),
    Step("", Cut("impl Face {")),
    Step("", Cut("pub enum Definition {")),
    Step("", Cut("impl Definition {")),
    Step("", Cut("pub(super) fn system(")),
    // Nor are the kinds of term beyond the ten and those of pairs, which the
    // reader lets through where they are asked for.
    Step("pub enum Term {", Cut("Defined(")),
    Step("pub enum Term {", Cut("System(")),
    Step("pub enum Term {", Cut("Comp(")),
    Step("pub enum Term {", Cut("GlueType(")),
    Step("pub enum Term {", Cut("Glue(")),
    Step("pub enum Term {", Cut("Unglue(")),
    // What chose a profile is not asked here: the profile is always Path.
    Step("", Cut("fn any(")),
    Step("", Cut("pub(super) fn has_glue(")),
    Step("", Cut("pub(super) fn has_definition(")),
    Step("", Cut("pub(super) fn has_system(")),
    Step("", Cut("pub(super) fn has_composition(")),
    Step("", Cut("pub(super) fn has_sigma(")),
    // The arms of `quote` for the kinds that are gone.
    Step("", Cut("Self::Defined(def) =>")),
    Step("", Cut("Self::System(_, sides) =>")),
    Step("", Cut("Self::GlueType(a, phi, t, e) =>")),
    Step("", Cut("Self::Glue(g, u, v) =>")),
    Step("", Cut("Self::Unglue(t) =>")),
    Step("", Cut("Self::Comp(a, phi, tube, base) =>")),
];

const SYNTAX: &[Step] = &[
    // As above.
    Step("", Put("//! Bounds", "// Bounds")),
    // Errors are refusals; faces are gone.
    Step("", Put("use super::{Face, ", "use super::{Refusal, ")),
    Step("", Cut("pub(super) fn face(")),
    // The arms of `term` for the kinds that are gone.
    Step("", Cut("Term::Defined(def) =>")),
    Step("", Put(" | Term::Glue(a, b, c)", "")),
    Step("", Put(" | Term::Unglue(p)", "")),
    Step("", Cut("Term::Comp(a, phi, tube, base) |")),
    Step("", Cut("Term::System(ty, sides) =>")),
    // Numbers at the errors.
    Step("", Refuse("dimension index exceeds", 7)),
    Step("", Refuse("exceeds depth 32 or", 6)),
    Step("", Refuse("variable index exceeds", 7)),
];

const PRODUCER: &[Step] = &[
    // Modules that the profile doesn't use, and with the first of them the
    // comment on the file; `sigma` and `syntax` are declared in src/cubical.rs.
    Step("", Cut("mod composition;")),
    Step("", Cut("mod congruence;")),
    Step("", Cut("mod definitions;")),
    Step("", Cut("mod faces;")),
    Step("", Cut("mod glue;")),
    Step("", Cut("mod restricted;")),
    Step("", Cut("mod sigma;")),
    Step("", Cut("mod syntax;")),
    Step("", Cut("mod systems;")),
    // Names: faces and definitions are gone, refusals are new.
    Step("", Put("use super::ast::{Definition, Face, ", "use super::ast::{")),
    Step(
        "",
        Put(
            "use crate::sexp::{",
            "use crate::refusal::Refusal;\nuse crate::watch::Watch;\nuse crate::sexp::{",
        ),
    ),
    Step("", Cut("use std::fmt::Write as _;")),
    // The theory file can't be had, and the profile is always Path.
    Step("", Cut("pub const THEORY")),
    Step("", Cut("pub enum Profile {")),
    Step("", Cut("impl Profile {")),
    // State of what is gone; our own watch over nesting, rows and cells comes in.
    Step("", Cut("type RestrictedInferenceKey")),
    Step("struct Producer {", Cut("profile:")),
    Step("struct Producer {", Cut("restricted_inferred:")),
    Step("struct Producer {", Cut("face_work:")),
    Step("struct Producer {", Cut("restricted_depth:")),
    Step("struct Producer {", Put("reduction_depth: usize", "watch: Watch")),
    // The table may be shorter than 50,000 rows.
    Step("", Cut("const MAX_STEPS")),
    Step("", Put("self.steps.len() >= MAX_STEPS", "self.steps.len() >= self.watch.row_room")),
    // The sixteen reference functions keep their bodies under a name of their
    // own; src/cubical/producer/watched.rs has each old name, counts nesting
    // and arguments, and calls the body.
    Step("", Put("fn ctx(", "fn ctx_source(")),
    Step("", Put("fn infer(", "fn infer_source(")),
    Step("", Put("fn universe(", "fn universe_source(")),
    Step("", Put("fn check(", "fn check_source(")),
    Step("", Put("fn expose(", "fn expose_source(")),
    Step("", Put("fn normalize(", "fn normalize_source(")),
    Step("", Put("fn equal(", "fn equal_source(")),
    Step("", Put("fn reduce(", "fn reduce_source(")),
    Step("", Put("fn lookup(", "fn lookup_source(")),
    Step("", Put("fn dshiftctx(", "fn dshiftctx_source(")),
    Step("", Put("fn transform(", "fn transform_source(")),
    Step("", Put("fn itransform(", "fn itransform_source(")),
    Step("", Put("fn under(", "fn under_source(")),
    Step("", Put("fn interval(", "fn interval_source(")),
    Step("", Put("fn comparison(", "fn comparison_source(")),
    Step("", Put("fn max(", "fn max_source(")),
    // The arms of `transform` for the kinds that are gone.
    Step("fn transform_source(", Cut("Defined(_) =>")),
    Step("fn transform_source(", Cut("GlueType(a, phi, t, e) =>")),
    Step("fn transform_source(", Cut("Glue(g, u, v) =>")),
    Step("fn transform_source(", Cut("Unglue(u) =>")),
    Step("fn transform_source(", Cut("Comp(a, phi, tube, base) =>")),
    Step("fn transform_source(", Cut("System(ty, sides) =>")),
    // Those of `infer` and of `reduce`.
    Step("fn infer_source(", Cut("Defined(_) =>")),
    Step("fn infer_source(", Cut("GlueType(..) |")),
    Step("fn infer_source(", Cut("Comp(..) =>")),
    Step("fn infer_source(", Cut("System(ty, sides) =>")),
    Step("fn reduce_source(", Cut("Comp(..) |")),
    // Pairs are inferred and reduced without a face. The rule and its premises go
    // to the row of `infer`, as any other kind's; no row is exported.
    Step(
        "Sigma(..) | Pair(..)",
        Put("let (ty, restricted) = self.sigma_infer((d, g), &Face::True, t)?;", ""),
    ),
    Step(
        "Sigma(..) | Pair(..)",
        Put("(ty, vec![restricted], \"rhas.export\")", "self.sigma_infer((d, g), t)?"),
    ),
    Step(
        "fn reduce_source(",
        Put(
            "System(ty, sides) => self.reduce_system(d, g, sides, ty),",
            "Fst(..) | Snd(..) => self.sigma_reduce((d, g), t),",
        ),
    ),
    // LONG ENDS, which the source has not (src/cubical/producer/endpoints.rs): the
    // interval of a papp is worked out before anything else of it, and the papp
    // goes to an end that is found. Where none is, the source's lines go on.
    Step(
        "fn reduce_source(",
        Put(
            "PathApp(p, r) => {",
            "PathApp(p, r) => {\n                let end = self.long_end(p, r)?;",
        ),
    ),
    Step(
        "fn reduce_source(",
        Put(
            "let (ty, sub_ty) = self.transform(&a, &Op::DSubst(0, r.clone()))?;",
            "if let Some(end) = end {
                    return self.at_end((d, g), t, r, [&a, &b, &c], path_id, end);
                }
                let (ty, sub_ty) = self.transform(&a, &Op::DSubst(0, r.clone()))?;",
        ),
    ),
    // HEADS: `normalize` walks with either step (src/cubical/producer/heads.rs).
    Step("fn normalize_source(", Put("t: &Term, ty: &Term)", "t: &Term, ty: &Term, head: bool)")),
    Step(
        "fn normalize_source(",
        Put("self.reduce(d, g, &current)?", "self.step(head, d, g, &current)?"),
    ),
    // A result takes cells just before the row that names it.
    Step(
        "fn itransform_source(",
        Put("let pred = if shift", "self.count_interval(&out)?;\n        let pred = if shift"),
    ),
    Step(
        "fn transform_source(",
        Put("let pred = op.prefix();", "self.count_term(&out)?;\n        let pred = op.prefix();"),
    ),
    Step(
        "fn dshiftctx_source(",
        Put(
            "let out = extend(&g2, &a2);",
            "let out = extend(&g2, &a2);\n        self.count_context(&out)?;",
        ),
    ),
    Step(
        "fn lookup_source(",
        Put("let id = self.fact(", "self.count_term(&ty)?;\n        let id = self.fact("),
    ),
    Step(
        "fn infer_source(",
        Put("let id = self.has(", "self.count_term(&ty)?;\n        let id = self.has("),
    ),
    // A remembered inference takes one when it is stored.
    Step(
        "fn infer_source(",
        Put(
            "self.inferred.insert(",
            "self.count_inference(d, g, t)?;\n        self.inferred.insert(",
        ),
    ),
    // Numbers at the errors; the text that `check` wraps around one goes.
    Step("fn emit(", Refuse("exceeded its 50000-step", 18)),
    Step("fn comparison_source(", Refuse("invalid comparison", 17)),
    Step(
        "fn lookup_source(",
        Put("ok_or_else(|| format!(\"unbound variable {n}\"))", "ok_or(Refusal(8))"),
    ),
    Step("fn converting<", Refuse("conversion exceeded its nesting", 16)),
    Step("fn universe_source(", Refuse("expected a type", 11)),
    Step("fn check_source(", Refuse("no cumulativity", 12)),
    Step("fn check_source(", CutCall(".map_err(")),
    Step("fn infer_source(", Refuse("\"application requires a function", 9)),
    Step("fn infer_source(", Refuse("path application requires", 10)),
    Step("fn reduce_source(", Refuse("path application requires", 10)),
    Step("fn normalize_source(", Refuse("root-reduction limit", 15)),
    Step("fn normalize_source(", Refuse("at a converted type", 14)),
    Step("fn equal_source(", Refuse("equality not established", 13)),
    // An equality's row always has a type: this error has no number.
    Step(
        "fn normalize_source(",
        Put(".ok_or(\"missing equality type\")", ".ok_or(Refusal::NEVER)"),
    ),
    // Requests go straight through in this profile, and calls take their place
    // (src/cubical/producer/play.rs); the kernel can't be had.
    Step("", Cut("fn request_ctx(")),
    Step("", Cut("fn request_universe(")),
    Step("", Cut("fn request_check(")),
    Step("", Cut("pub struct Request {")),
    Step("", Cut("pub enum Judgment {")),
    Step("", Cut("pub struct Generated {")),
    Step("", Cut("fn validate(")),
    Step("", Cut("fn needs_systems(")),
    Step("", Cut("fn needs_composition(")),
    Step("", Cut("fn needs_sigma(")),
    Step("", Cut("fn needs_equivalence(")),
    Step("", Cut("fn needs_glue(")),
    Step("", Cut("pub fn produce(")),
    Step("", Cut("pub fn produce_with_profile(")),
    Step("", Cut("fn produce_selected(")),
    Step("", Cut("fn produce_on_this_stack(")),
];

const SIGMA: &[Step] = &[
    // As above.
    Step("", Put("//! Untrusted", "// Untrusted")),
    Step("", Put("use super::{Face, ", "use super::{Refusal, ")),
    // Pairs are equal by root reduction alone.
    Step("", Cut("pub(super) fn sigma_eta(")),
    // No face: `infer`, `universe`, `check` and `expose` for the restricted calls.
    Step("fn sigma_subject(", Cut("phi: &Face,")),
    Step("pub(super) fn sigma_infer(", Cut("phi: &Face,")),
    Step("pub(super) fn sigma_reduce(", Cut("phi: &Face,")),
    Step("", Each(", phi", "")),
    Step("", Each("self.restricted_infer(", "self.infer(")),
    Step("", Each("self.restricted_universe(", "self.universe(")),
    Step("", Each("self.restricted_check(", "self.check(")),
    Step("", Put(".restricted_expose(scope, p", ".expose(scope.0, scope.1, p")),
    // The rules, as the change request names them.
    Step("", Put("\"rhas.sigma\"", "\"type.sigma\"")),
    Step("", Put("\"rhas.pair\"", "\"type.pair\"")),
    Step("", Put("\"rhas.fst\"", "\"type.fst\"")),
    Step("", Put("\"rhas.snd\"", "\"type.snd\"")),
    Step("", Put("\"req.fst-beta\"", "\"eq.fst-beta\"")),
    Step("", Put("\"req.snd-beta\"", "\"eq.snd-beta\"")),
    // `infer` makes the row, and takes the type's cells before it; an equation's
    // row is that of any other reduction.
    Step(
        "pub(super) fn sigma_infer(",
        Put("Result<(Term, usize)>", "Result<(Term, Vec<usize>, &'static str)>"),
    ),
    Step("pub(super) fn sigma_infer(", Cut("let id = self.rhas(")),
    Step("pub(super) fn sigma_infer(", Put("Ok((ty, id))", "Ok((ty, refs, rule))")),
    Step(
        "pub(super) fn sigma_reduce(",
        Put("Result<Option<(Term, Term, usize)>>", "Result<Option<(Term, usize)>>"),
    ),
    Step(
        "pub(super) fn sigma_reduce(",
        Put(
            "self.restricted_evidence(rule, refs, scope, (t, &out), &ty)?",
            "self.equality_step(rule, refs, scope, t, &out, &ty)?",
        ),
    ),
    Step("pub(super) fn sigma_reduce(", Put("Ok(Some((out, ty, id)))", "Ok(Some((out, id)))")),
    // Numbers at the errors; the last can't happen.
    Step("fn sigma_subject(", Refuse("projection requires", 21)),
    Step("pub(super) fn sigma_infer(", Refuse("pair annotation must", 22)),
    Step("pub(super) fn sigma_infer(", Put("\"expected Sigma syntax\".into()", "Refusal::NEVER")),
];

const CONGRUENCE: &[Step] = &[
    // As above.
    Step("", Put("//! Untrusted", "// Untrusted")),
    Step("", Put("//! at the rule's", "// at the rule's")),
    Step("", Put("use super::{Face, ", "use super::{Refusal, ")),
    // The head of an app and of a papp alone, and never the argument.
    Step("pub(super) fn reduce_congruence(", Cut("Fst(p) | Snd(p) =>")),
    Step("pub(super) fn reduce_congruence(", Cut("Unglue(p) =>")),
    Step("pub(super) fn reduce_congruence(", CutElse("else if let Some((arg2, ")),
    // No face: `infer`, `expose`, `check` and `interval` for the restricted calls, and the
    // step for `restricted_reduce`, which tries the root and then this.
    Step("pub(super) fn congruence_subject(", Cut("phi: &Face,")),
    Step("pub(super) fn reduce_congruence(", Cut("phi: &Face,")),
    Step("", Put("self.local(d, phi, r, r)", "self.interval(d, r)")),
    Step("", Each("phi,", "")),
    Step("", Each("self.restricted_infer(", "self.infer(")),
    Step("", Put(".restricted_expose_until(scope, ", ".expose(scope.0, scope.1, ")),
    Step("pub(super) fn congruence_subject(", Put("&ty, typed, head)", "&ty, typed)")),
    Step("", Each("self.restricted_check(", "self.check(")),
    Step("", Each("self.restricted_reduce(scope, ", "self.head_step(scope.0, scope.1, ")),
    // A head whose step has another type is refused; nothing is converted.
    Step("", Each("self.restricted_convert_equality(", "self.at_type(")),
    Step("", Put("(&actual, &fty)", "&fty")),
    Step("", Put("(&actual, &pty)", "&pty")),
    Step("", Each(", actual, ", ", ")),
    // The argument's row is cited as it is, and the head's typing is not.
    Step("", Put("let (fty, ftyped) =", "let (fty, _) =")),
    Step("", Cut("let arg_eq = self.restricted_evidence(")),
    Step("", Put("(f2, *arg.clone(), eq, arg_eq)", "(f2, *arg.clone(), eq, argtyped)")),
    // The rules, as the change request names them; the row is that of any reduction.
    Step("", Put("\"req.app-cong\"", "\"eq.app-cong\"")),
    Step("", Put("\"req.papp-cong\"", "\"eq.papp-cong\"")),
    Step(
        "pub(super) fn reduce_congruence(",
        Put("Result<Option<(Term, Term, usize)>>", "Result<Option<(Term, usize)>>"),
    ),
    Step(
        "pub(super) fn reduce_congruence(",
        Put("self.restricted_evidence(rule, refs, scope, ", "self.equality_step(rule, refs, scope, "),
    ),
    Step("pub(super) fn reduce_congruence(", Put("(term, &out), &ty)?", "term, &out, &ty)?")),
    Step("pub(super) fn reduce_congruence(", Put("Ok(Some((out, ty, id)))", "Ok(Some((out, id)))")),
    // The term was typed, so its head has such a type: this error has no number.
    Step(
        "pub(super) fn congruence_subject(",
        Put("\"congruence subject has the wrong type head\".into()", "Refusal::NEVER"),
    ),
];
