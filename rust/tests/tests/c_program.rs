//! The C program of `examples/`, compiled and run.
#![forbid(unsafe_code)]

use std::path::Path;

use trails_tests::programs::{compile, printed, project};

#[test]
fn the_example_compiles_and_prints_what_is_stored_beside_it() {
    let examples = project().join("examples");
    let program = Path::new(env!("CARGO_TARGET_TMPDIR")).join("cart");
    compile(&examples.join("cart.c"), &program);
    let stored = std::fs::read_to_string(examples.join("cart.out")).expect("it is stored");
    let text = printed(&program, b"", 1);
    assert_eq!(String::from_utf8_lossy(&text), stored);
}
