//! How `tuft fmt` lays files out.
use tuft::format::format;

/// A file, and the same laid out.
const LAID_OUT: &[(&str, &str)] = &[
    ("plan x", "plan x\n"),
    ("\n\n\tplan\tx \t\n\n\n\n event   a  b\n\n", "plan x\n\nevent a b\n"),
    (
        "plan x\nevent a\nchannel c gives a\njob j from s to t\nnodes s t\ns gives a then t\nrule r\nwatch a\nevery a\n",
        "plan x\nevent a\nchannel c gives a\n\njob j from s to t\n  nodes s t\n  s gives a then t\n\nrule r\n  watch a\n  every a\n",
    ),
    (
        "plan x\n\n\nservice s from a\n\n\na then a\n\n\njobs k l from a to a\nrule r\nevery 0\n",
        "plan x\n\nservice s from a\n\n  a then a\n\njobs k l from a to a\n\nrule r\n  every 0\n",
    ),
    // Chains and patterns that go on.
    (
        "plan x\njob j from s to t\ns gives\na\nthen u\ncalls c then t\nu then t\nrule r\nevery\na\n;\nb\ntimes\n3\nwatch c\n",
        "plan x\n\njob j from s to t\n  s gives\n    a\n    then u\n    calls c then t\n  u then t\n\nrule r\n  every\n    a\n    ;\n    b\n    times\n    3\n  watch c\n",
    ),
    // Signs.
    (
        "plan x\nrule r\nevery( a;b |[ ^ c  d ]*+ ? )times 3|[ ]|[^ ]  ;0 *\n",
        "plan x\n\nrule r\n  every (a ; b | [^c d]*+?) times 3 | [] | [^] ; 0*\n",
    ),
    // Comments.
    (
        "plan x\njob j from s to t\ns then t\n\n# c\n\ns then u\n",
        "plan x\n\njob j from s to t\n  s then t\n\n  # c\n\n  s then u\n",
    ),
    (
        "#a\n#\n##  b  \n#\tc\nplan x#d\nevent a   # e\n",
        "# a\n#\n##  b\n#\tc\nplan x  # d\nevent a  # e\n",
    ),
    // A comment is indented as the next line of its block, and one directly above a job or a rule stands with it.
    (
        "plan x\n# one\n# two\njob j from s to t\n# three\ns then\n# four\nt\n# five\n# six\nrule r\n# seven\n\n# eight\nevery 0\n",
        "plan x\n\n# one\n# two\njob j from s to t\n  # three\n  s then\n    # four\n    t\n\n# five\n# six\nrule r\n  # seven\n\n  # eight\n  every 0\n",
    ),
    // A comment at the end of a block belongs to it, and one that stands alone to none.
    (
        "plan x\nevent a\n# one\n\njob j from s to t\ns then t\n# two\n\n# three\n\njob k from s to t\n#four\n\nrule r\nevery 0\n#five\n\n#six\n",
        "plan x\nevent a\n# one\n\njob j from s to t\n  s then t\n  # two\n\n# three\n\njob k from s to t\n  # four\n\nrule r\n  every 0\n  # five\n\n# six\n",
    ),
    // Unknown names do not matter, nor do limits.
    ("plan x\nrule r\nevery a times 64\n", "plan x\n\nrule r\n  every a times 64\n"),
    // Carriage returns and the mark are mended.
    ("\u{feff}plan x\r\n\r\nevent a\rchannel b\r\n", "plan x\n\nevent a\nchannel b\n"),
];

#[test]
fn files_are_laid_out() {
    for (text, expected) in LAID_OUT {
        assert_eq!(format(text.as_bytes()).ok().as_deref(), Some(*expected));
        assert_eq!(format(expected.as_bytes()).ok().as_deref(), Some(*expected));
    }
}

/// Errors of notation are told, and no others.
#[test]
fn broken_files_are_not_laid_out() {
    let file = format("\u{feff}plan x\r\nevent a,\r\nrule r\r\n".as_bytes()).unwrap_err();
    let told = file.diagnostics.iter();
    let told = told.map(|d| format!("{}:{}: {}", d.place.line, d.place.column, d.message));
    assert_eq!(
        told.collect::<Vec<String>>(),
        [
            "2:8: ',' is no part of the notation: names stand one after the other, with blanks between them; in a pattern ';' says what comes next",
            "3:6: the rule has neither 'every' nor 'never'",
        ]
    );
    assert!(format(b"plan x\nevent a\0\n").is_err());
    assert!(format(b"plan \xff").is_err());
}
