//! Hands on where the archive with the exported calls stands: the C programs
//! of the tests are linked with the one that the Rust bindings link.

fn main() {
    let archive = std::env::var("DEP_FRAME_STORE_ARCHIVE").expect("the bindings tell it");
    println!("cargo::rustc-env=FRAME_ARCHIVE={archive}");
}
