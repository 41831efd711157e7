//! Links the product's library.

include!("link.rs");

fn main() {
    link("..", "bowlinette");
}
