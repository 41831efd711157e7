//! What include/bowlinette.h says: the version, and the number and sentence of each refusal.

const HEADER: &str = include_str!("../../../../include/bowlinette.h");

/// What a macro of the header stands for.
fn defined(name: &str) -> &'static str {
    let words = HEADER.lines().map(|line| line.splitn(3, ' '));
    let mut values = words.filter_map(|mut words| {
        let found = words.next() == Some("#define") && words.next() == Some(name);
        words.next().filter(|_| found)
    });
    values.next().expect("a macro of the header")
}

/// The version of the interface.
pub fn version() -> &'static str {
    defined("BOWLINETTE_VERSION").trim_matches('"')
}

/// The text of a run of C string literals: every second part between quotes.
fn literals(code: &str) -> String {
    code.split('"').skip(1).step_by(2).collect()
}

/// Each refusal with its sentence, in the order of the header.
pub fn refusals() -> Vec<(u32, String)> {
    let cases = HEADER.split("case BOWLINETTE_REFUSED_").skip(1);
    let refusal = |case: &str| {
        let (name, code) = case.split_once(':').expect("a case");
        let (code, _) = code.split_once(';').expect("a statement");
        let value = defined(&format!("BOWLINETTE_REFUSED_{name}"));
        let number = value.split(' ').next().expect("a number");
        (number.parse().expect("a number"), literals(code))
    };
    cases.map(refusal).collect()
}

/// The sentence of a refusal.
pub fn sentence(number: u32) -> String {
    let found = refusals().into_iter().find(|(n, _)| *n == number);
    found.expect("a refusal of the header").1
}

/// All refusals are found: as many as there are macros, and some of them are as one reads them there.
#[test]
fn the_header_is_read() {
    let macros = HEADER.matches("#define BOWLINETTE_REFUSED_").count();
    let refusals = refusals();
    assert_eq!(refusals.len(), macros);
    assert!(macros >= 18);
    assert_eq!(refusals[0].0, 1);
    assert_eq!(sentence(1), "The key is not of 16, 24 or 32 bytes.");
    assert!(sentence(30).ends_with("cut short, or is a fifth remark."));
    assert_eq!(version().split('.').count(), 2);
}
