//! The programs that README shows are those of the tree, which are run.

const README: &str = include_str!("../../../README.md");

#[test]
fn readme_shows_the_programs_of_the_tree() {
    for program in [
        include_str!("../../../examples/balances.c"),
        include_str!("../examples/balances.rs"),
    ] {
        assert!(
            README.contains(program.trim_end()),
            "not in README:\n{program}"
        );
    }
}
