//! The header and `sys` declare exactly the functions of crates/tetra_mac_c, tetra_resource_c and tetra_block_c, with their parameters.
use std::collections::BTreeMap;
use std::path::Path;

type Functions = BTreeMap<String, Vec<String>>;

fn file(path: &str) -> String {
    let path = Path::new(env!("CARGO_MANIFEST_DIR")).join("../..").join(path);
    std::fs::read_to_string(&path).unwrap_or_else(|e| panic!("{}: {e}", path.display()))
}

/// What stands between the mark and the name's parenthesis, and the parameters, one after the other.
fn functions(text: &str, mark: &str, types: impl Fn(&str) -> Vec<&'static str>) -> Functions {
    let mut all = Functions::new();
    for part in text.split(mark).skip(1) {
        let Some((name, rest)) = part.split_once('(') else { continue };
        let Some((parameters, _)) = rest.split_once(')') else { continue };
        if name.starts_with("tetra_") {
            let parameters = parameters.split(',').map(str::trim).filter(|p| !p.is_empty());
            all.insert(name.to_string(), parameters.flat_map(&types).map(str::to_string).collect());
        }
    }
    all
}

fn source(parameter: &str) -> Vec<&'static str> {
    match parameter.split_once(": ").expect(parameter).1 {
        "&[u8]" => vec!["*const u8", "usize"],
        "&mut [u8]" => vec!["*mut u8", "usize"],
        "&[u64]" => vec!["*const u64", "usize"],
        "&mut [u64]" => vec!["*mut u64", "usize"],
        "usize" => vec!["usize"],
        "isize" => vec!["isize"],
        "u64" => vec!["u64"],
        other => panic!("a parameter of type {other}"),
    }
}

fn rust(parameter: &str) -> Vec<&'static str> {
    let known = ["*const u8", "*mut u8", "*const u64", "*mut u64", "usize", "isize", "u64"];
    let given = parameter.split_once(": ").expect(parameter).1;
    vec![known.into_iter().find(|t| *t == given).expect(given)]
}

fn c(parameter: &str) -> Vec<&'static str> {
    let given = parameter.trim_end_matches(|c: char| c.is_alphanumeric() || c == '_');
    vec![match given.trim() {
        "const uint8_t *" => "*const u8",
        "uint8_t *" => "*mut u8",
        "const uint64_t *" => "*const u64",
        "uint64_t *" => "*mut u64",
        "size_t" => "usize",
        "ptrdiff_t" => "isize",
        "uint64_t" => "u64",
        other => panic!("a parameter of type {other}"),
    }]
}

#[test]
fn declared() {
    let mut there = Functions::new();
    for folder in ["crates/tetra_mac_c/src", "crates/tetra_resource_c/src", "crates/tetra_block_c/src"] {
        for entry in std::fs::read_dir(Path::new(env!("CARGO_MANIFEST_DIR")).join("../..").join(folder)).expect(folder) {
            let text = std::fs::read_to_string(entry.expect("a file").path()).expect("a file of text");
            there.extend(functions(&text, "pub extern \"C\" fn ", source));
        }
    }
    assert!(there.len() >= 21);
    assert_eq!(there, functions(&file("bindings/rust/src/sys.rs"), "pub fn ", rust));
    assert_eq!(there, functions(&file("bindings/c/tetra_mac.h"), "\nuint64_t ", c));
}
