//! The repository's README shows the example as it stands, and what it prints.

#[test]
fn shows_the_example() {
    let folder = env!("CARGO_MANIFEST_DIR");
    let text = |file: &str| std::fs::read_to_string(format!("{folder}/{file}")).expect(file);
    let readme = text("../../README.md");
    for (kind, file) in [("rust", "examples/prices.rs"), ("text", "examples/prices.txt")] {
        let block = format!("```{kind}\n{}```\n", text(file));
        assert!(readme.contains(&block), "README.md does not show host/rust/{file} as it stands");
    }
}
