//! The README shows programs that run: the example `first_use`, which the crate's documentation runs,
//! and the Rattle program `first_use` with its stored output.

#[test]
fn the_first_use_of_the_readme_is_the_example() {
    let example = include_str!("../examples/first_use.rs");
    let block = format!("```rust\n{example}```\n");
    assert!(include_str!("../../../README.md").contains(&block));
}

#[test]
fn the_rattle_lines_of_the_readme_are_those_of_the_program() {
    let readme = include_str!("../../../README.md");
    let program = include_str!("../../../crates/first_use/src/main.rt");
    let main = &program[program.find("fn main(").expect("a main")..];
    assert!(readme.contains(&format!("```rust\n{main}```\n")));
    let lines = include_str!("../../../crates/first_use/stdout").lines();
    let printed: String = lines.map(|line| format!("    {line}\n")).collect();
    assert!(readme.contains(&format!(":\n\n{printed}\n")));
}
