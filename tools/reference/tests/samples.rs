//! The stored runs of each level, played again.
use reference::{on_large_stack, vectors, Level};

#[test]
fn stored_runs_have_their_answers() {
    on_large_stack(|| {
        for level in Level::ALL {
            let path = format!("{}/tests/r{level}.jsonl", env!("CARGO_MANIFEST_DIR"));
            let level = vectors::level(&path).expect("a file's name has its level");
            let text = std::fs::read_to_string(&path).expect("a file for each level");
            for (i, line) in text.lines().enumerate() {
                let found = vectors::differences(level, line, u64::MAX);
                assert_eq!(found, Ok(vec![]), "{path}, line {}", i + 1);
            }
        }
    });
}

/// A changed answer shows, whichever field it is in.
#[test]
fn a_wrong_answer_is_found() {
    let line = |answers: &str| {
        let run = r#""table_words":240,"cell_words":80,"answer_words":4,"run":"64000300000403""#;
        format!("{{\"name\":\"first\",{run},{answers}}}")
    };
    let text = "call code row result deepest\\n0 0 1 - 3\\nrow rule refs judgment\\n\
        0 ctx.nil - (ctx 0 nil)\\n1 type.zero 0 (has 0 nil zero nat)\\n\
        rows cells repeats\\n2 4 0\\n";
    let good = format!(r#""listing":"{text}","results":[0],"args":[[0,0],[0,0,1,2]],"made":[0,0]"#);
    let level = Level::new(11).expect("a level");
    let differ = |answers: &str| vectors::differences(level, &line(answers), u64::MAX);
    assert_eq!(differ(&good), Ok(vec![]));
    let changes = [("- 3", "- 2"), ("4 0\\n\"", "5 0\\n\""), ("[0],", "[1],"), ("1,2]", "1,3]")];
    for (was, is) in changes.into_iter().chain([("\"made\":[0,0]", "\"made\":[0,1]")]) {
        let changed = good.replace(was, is);
        assert_ne!(changed, good, "{was} is there");
        assert_eq!(differ(&changed).map(|found| found.len()), Ok(1), "{is}");
    }
    assert!(differ(&good.replace("\"made\"", "\"mad\"")).is_err());
}
