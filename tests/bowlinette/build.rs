//! Links the tests' own library.

include!("../../rust/link.rs");

fn main() {
    link("../..", "bowlinette_test");
}
