//! That the exports which callers link have the contracts of the functions that
//! the lists of calls are about: `wihupya_c` says of each, word for word, what
//! `wihupya` says of the function of its name.

use std::collections::BTreeMap;

const FUNCTIONS: &str = include_str!("../../../crates/wihupya/src/lib.rt");
const EXPORTS: &str = include_str!("../../../crates/wihupya_c/src/lib.rt");

/// What stands between name and body of each function that begins so: parameters,
/// result and clauses, with one space for any layout, and no comma before a
/// closing bracket.
fn contracts(text: &str, begin: &str) -> BTreeMap<String, String> {
    let told = text.split(begin).skip(1).map(|rest| {
        let (name, rest) = rest.split_once('(').unwrap();
        let (contract, _) = rest.split_once("\n{").unwrap();
        let words: Vec<_> = contract.split_whitespace().collect();
        (name.to_string(), words.join(" ").replace(", )", ")"))
    });
    told.collect()
}

#[test]
fn exports_have_the_contracts_of_the_functions() {
    let exports = contracts(EXPORTS, "\n#[unsafe(no_mangle)]\npub extern \"C\" fn ");
    let functions = contracts(FUNCTIONS, "\npub fn ");
    assert_eq!(exports.len(), 10);
    for (name, contract) in &exports {
        assert!(contract.contains("ensures {") || contract.contains("ensures is {"), "{name}");
        assert_eq!(functions.get(name), Some(contract), "{name}");
    }
}

/// Which library's definition each name of the clauses is: `job_of` is `Rattle.wihupya.specs.Words.job_of`.
fn imports(text: &str) -> BTreeMap<String, String> {
    let mut found = BTreeMap::new();
    for item in text.split("ghost use ").skip(1) {
        let (path, names) = item.split_once('{').unwrap();
        let (names, _) = names.split_once('}').unwrap();
        for name in names.split(',') {
            let (of, here) = name.split_once(" as ").unwrap_or((name, name));
            found.insert(here.trim().to_string(), format!("{path}{}", of.trim()));
        }
    }
    found
}

#[test]
fn names_in_them_mean_the_same() {
    let (exports, functions) = (imports(EXPORTS), imports(FUNCTIONS));
    assert!(exports.contains_key("call_on"));
    for (name, definition) in &exports {
        assert_eq!(functions.get(name), Some(definition), "{name}");
    }
}
