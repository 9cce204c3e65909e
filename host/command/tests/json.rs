//! Answers for programs, as whole texts.
mod common;
use common::Folder;

#[test]
fn each_command_answers_by_an_object() {
    let folder = Folder::new();
    let says = |line: &str, answer: &str| assert_eq!(folder.done(&format!("{line} --json")), format!("{answer}\n"));
    says("format @a --degree 4 --branches 40 --entries 4 --editions 4", r#"{"number":0,"words":328,"bytes":2624}"#);
    says("new @a", r#"{"number":0,"edition":0}"#);
    says("insert @a 0 1 2 0xffff_ffff_ffff_ffff", r#"{"number":0,"edition":1,"branches":1,"entries":1}"#);
    says("insert @a 1 1 3 4", r#"{"number":0,"edition":2,"branches":32,"entries":1}"#);
    says("change @a 1 1 2 5", r#"{"number":0,"edition":3,"branches":1,"entries":1}"#);
    says("drop @a 3", r#"{"number":0,"branches":1,"entries":1}"#);
    says("remove @a 2 1 3", r#"{"number":0,"edition":3,"branches":0,"entries":0}"#);
    says("equal @a 1 3", r#"{"number":0,"equal":true}"#);
    says("equal @a 1 2", r#"{"number":0,"equal":false}"#);
    says("get @a 1 1 2", r#"{"number":0,"value":18446744073709551615}"#);
    says("check @a", r#"{"number":0,"sound":true}"#);
    says("list @a 2 --count 1", r#"{"number":0,"size":2,"from":0,"entries":[{"hash":1,"key":3,"value":4}]}"#);
    says("list @a 0", r#"{"number":0,"size":0,"from":0,"entries":[]}"#);
    says("drop @a 2", r#"{"number":0,"branches":32,"entries":1}"#);
    says("share @a 1", r#"{"number":0,"edition":2}"#);
    says(
        "info @a",
        concat!(
            r#"{"number":0,"degree":4,"words":328,"beyond":0,"branches":{"room":40,"in_use":1,"free":39},"#,
            r#""entries":{"room":4,"in_use":1,"free":3},"editions":{"room":4,"in_use":4,"free":0},"#,
            r#""held":[{"edition":0,"size":0},{"edition":1,"size":1},{"edition":2,"size":1},{"edition":3,"size":1}]}"#
        ),
    );
    says(
        "tag 3005,1042",
        r#"{"number":0,"group":12293,"element":4162,"class":"private","block":16,"low":66,"key":805638210}"#,
    );
    says("tag 8,10", r#"{"number":0,"group":8,"element":16,"class":"public","key":524304}"#);
    folder.done("drop @a 2");
    folder.done("drop @a 3");
    folder.write("t", "1 2 7\n2 9 8\n");
    says("load @a 1 @t", r#"{"number":0,"edition":2,"inserted":2,"size":2,"branches":1,"entries":2}"#);
    says("--version", concat!(r#"{"number":0,"text":"shelf "#, env!("CARGO_PKG_VERSION"), r#""}"#));
}

#[test]
fn a_drawing_for_programs() {
    let folder = Folder::new();
    folder.done("format @a --degree 64 --branches 11 --entries 2 --editions 4");
    folder.done("new @a");
    folder.done("insert @a 0 0 1 2");
    let row = r#"{"number":0,"edition":1,"degree":64,"size":1,"rows":[{"depth":0,"branch":0,"by":[]},"#;
    let drawing = folder.done("show @a 1 --json");
    assert!(drawing.starts_with(row), "{drawing}");
    assert!(drawing.ends_with("\"hash\":0,\"key\":1,\"value\":2}],\"cut\":false,\"left_out\":0}\n"), "{drawing}");
    folder.done("drop @a 0");
    folder.fails("insert @a 1 0 2 3", 8, "no branch cells");
    let cut = folder.done("show @a 1 --lines 1 --json");
    assert!(cut.ends_with("\"cut\":true,\"left_out\":1}\n"), "{cut}");
}
