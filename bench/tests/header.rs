//! What `src/product` declares by hand is what `include/bernkessel.h` says: every function and every struct, in both directions.

use std::collections::BTreeMap;
use std::fs;
use std::path::PathBuf;

/// Names with what stands behind them: of a function its types, of a struct its fields.
type Declared = BTreeMap<String, String>;

fn folder(name: &str) -> PathBuf {
    PathBuf::from(env!("CARGO_MANIFEST_DIR")).join(name)
}

/// The text between two marks, each time they stand in this order.
fn between<'a>(text: &'a str, begin: &'a str, end: &'a str) -> impl Iterator<Item = &'a str> {
    text.split(begin).skip(1).filter_map(move |rest| Some(rest.split_once(end)?.0))
}

/// `bk_row_gathered` as `RowGathered`, `uint8_t` as `u8`.
fn rust_type(c: &str) -> String {
    match c {
        "uint8_t" => "u8".into(),
        "uint16_t" => "u16".into(),
        "uint32_t" => "u32".into(),
        "uint64_t" => "u64".into(),
        "size_t" => "usize".into(),
        _ => {
            let words = c.strip_prefix("bk_").expect("a type of the header").split('_');
            words.map(|word| word[..1].to_uppercase() + &word[1..]).collect()
        }
    }
}

/// A field or a parameter of C in the words of Rust; arrays are pointers where they are parameters.
fn rust_field(c: &str, parameter: bool) -> String {
    let (constant, c) = c.trim().strip_prefix("const ").map_or(("mut", c.trim()), |c| ("const", c));
    let (kind, name) = c.split_once(' ').expect("a type and a name");
    let kind = rust_type(kind);
    if let Some(name) = name.strip_prefix('*') {
        return format!("{name}: *{constant} {kind}");
    }
    match name.split_once('[') {
        Some((name, _)) if parameter => format!("{name}: *{constant} {kind}"),
        Some((name, length)) => format!("{name}: [{kind}; {}]", length.trim_end_matches(']')),
        None => format!("{name}: {kind}"),
    }
}

/// The header's functions and structs, without its comments and directives.
fn header() -> (Declared, Declared) {
    let text = fs::read_to_string(folder("../include/bernkessel.h")).unwrap();
    let code: String =
        text.split("/*").map(|part| part.split_once("*/").map_or(part, |p| p.1)).collect();
    let lines = code.lines().filter(|line| !line.trim_start().starts_with('#'));
    let code = lines.collect::<Vec<_>>().join(" ");
    let mut structs = Declared::new();
    for rest in code.split("typedef struct {").skip(1) {
        let (body, rest) = rest.split_once('}').unwrap();
        let fields = body.split(';').filter(|field| !field.trim().is_empty());
        let fields: Vec<String> = fields.map(|field| rust_field(field, false)).collect();
        let name = rest.split(';').next().unwrap().trim();
        structs.insert(rust_type(name), fields.join(", "));
    }
    let mut functions = Declared::new();
    for statement in code.split([';', '}']) {
        let Some((front, parameters)) = statement.split_once('(') else { continue };
        let [.., result, name] = front.split_whitespace().collect::<Vec<_>>()[..] else { continue };
        let parameters = parameters.trim().trim_end_matches(')');
        let given = parameters.split(',').filter(|parameter| parameter.trim() != "void");
        let given: Vec<String> = given.map(|parameter| rust_field(parameter, true)).collect();
        functions.insert(name.into(), format!("{} -> {}", given.join(", "), rust_type(result)));
    }
    (functions, structs)
}

/// A list of fields or parameters in one line.
fn listed(body: &str) -> String {
    let items = body.split(',').map(|item| item.split_whitespace().collect::<Vec<_>>().join(" "));
    items.filter(|item| !item.is_empty()).collect::<Vec<_>>().join(", ")
}

/// What `src/product` declares.
fn declared() -> (Declared, Declared) {
    let (mut functions, mut structs) = (Declared::new(), Declared::new());
    for file in fs::read_dir(folder("src/product")).unwrap() {
        let text = fs::read_to_string(file.unwrap().path()).unwrap();
        let lines = text.lines().filter(|line| !line.trim_start().starts_with("//"));
        let code = lines.collect::<Vec<_>>().join("\n").replace("pub ", "");
        for part in between(&code, "fn bk_", ";") {
            let (name, rest) = part.split_once('(').unwrap();
            let (parameters, result) = rest.split_once(')').unwrap();
            let result = result.split_whitespace().collect::<Vec<_>>().join(" ");
            let types = format!("{} {result}", listed(parameters));
            assert_eq!(functions.insert(format!("bk_{name}"), types), None, "{name} twice");
        }
        for part in between(&code, "#[repr(C)]", "\n}") {
            let (_, rest) = part.split_once("struct ").unwrap();
            let (name, body) = rest.split_once(" {").unwrap();
            structs.insert(name.into(), listed(body));
        }
    }
    (functions, structs)
}

#[test]
fn functions_and_structs_are_those_of_the_header() {
    let (functions, structs) = header();
    let (declared_functions, declared_structs) = declared();
    assert!(functions.len() >= 50 && structs.len() >= 34, "{} {}", functions.len(), structs.len());
    same(&declared_functions, &functions);
    same(&declared_structs, &structs);
}

fn same(declared: &Declared, header: &Declared) {
    for name in declared.keys().chain(header.keys()) {
        assert_eq!(declared.get(name), header.get(name), "{name}");
    }
}
