//! The boundary's declarations, include/polar.h and the library's sources say the same of every call and of every struct.
use polar_sys::{RayRecord, DECLARATIONS, SHAPES};
use std::collections::BTreeMap;
use std::fs;
use std::mem::{align_of, offset_of, size_of};
use std::path::Path;

/// A call's arguments, as name and type in Rust's words, and its result.
#[derive(Debug, PartialEq, Eq)]
struct Call {
    arguments: Vec<(String, String)>,
    result: String,
}

type Calls = BTreeMap<String, Call>;

fn source(path: &str) -> String {
    let path = Path::new(env!("CARGO_MANIFEST_DIR")).join("../..").join(path);
    fs::read_to_string(&path).unwrap_or_else(|why| panic!("{}: {why}", path.display()))
}

fn declared() -> Calls {
    let arguments = |all: &[(&str, &str)]| all.iter().map(|(name, kind)| (name.to_string(), kind.to_string())).collect();
    DECLARATIONS.iter().map(|d| (d.name.into(), Call { arguments: arguments(d.arguments), result: d.result.into() })).collect()
}

/// The name of a C number or struct in Rust.
fn rust_name(c: &str) -> &'static str {
    match c {
        "uint8_t" => "u8",
        "uint32_t" => "u32",
        "uint64_t" => "u64",
        "int32_t" => "i32",
        "int64_t" => "i64",
        "size_t" => "usize",
        "double" => "f64",
        "polar_ray_record" => "RayRecord",
        _ => panic!("a type that the boundary does not know: {c}"),
    }
}

/// One argument of a C prototype: `const uint8_t *octets`, `uint64_t answer[3]`, `size_t n`.
fn c_argument(text: &str) -> (String, String) {
    let (kind, name) = text.trim().rsplit_once([' ', '*']).expect("a type and a name");
    if let Some((name, length)) = name.strip_suffix(']').and_then(|name| name.split_once('[')) {
        return (name.into(), format!("*mut [{}; {length}]", rust_name(kind.trim())));
    }
    let kind = if text.contains('*') {
        match kind.trim().strip_prefix("const ") {
            Some(kind) => format!("*const {}", rust_name(kind.trim())),
            None => format!("*mut {}", rust_name(kind.trim())),
        }
    } else {
        rust_name(kind.trim()).into()
    };
    (name.into(), kind)
}

fn without_comments(text: &str) -> String {
    let mut kept = String::new();
    let mut rest = text;
    while let Some((before, after)) = rest.split_once("/*") {
        kept += before;
        rest = after.split_once("*/").expect("a comment's end").1;
    }
    kept + rest
}

/// Macros, and functions that the header itself defines, are no calls of the library.
fn without_definitions(text: &str) -> String {
    let text: String = text.split_inclusive('\n').filter(|line| !line.starts_with('#')).collect();
    let mut parts = text.split("static inline ");
    let declarations = parts.next().expect("the header's front").to_string();
    parts.fold(declarations, |kept, part| kept + part.split_once("\n}\n").expect("a definition's end").1)
}

/// Every prototype of the header.
fn in_header() -> Calls {
    let text = without_definitions(&without_comments(&source("include/polar.h")));
    let prototypes = text
        .split(';')
        .filter_map(|part| part.rsplit_once('(').map(|(head, arguments)| (head, arguments.trim_end().trim_end_matches(')'))));
    prototypes
        .map(|(head, arguments)| {
            let mut words = head.split_whitespace().rev();
            let (name, result) = (words.next().expect("a name"), words.next().expect("a result"));
            (name.into(), Call { arguments: arguments.split(',').map(c_argument).collect(), result: rust_name(result).into() })
        })
        .collect()
}

/// How arguments of Rattle pass: a slice as a pointer and a length, a lent array or number as a pointer. Lengths have no
/// name there.
fn passed(kind: &str) -> Vec<String> {
    let (pointer, pointee) = match (kind.strip_prefix("&mut "), kind.strip_prefix('&')) {
        (Some(pointee), _) => ("*mut", pointee),
        (None, Some(pointee)) => ("*const", pointee),
        (None, None) => return vec![kind.into()],
    };
    match pointee.strip_prefix('[').and_then(|rest| rest.strip_suffix(']')) {
        Some(element) if !element.contains(';') => vec![format!("{pointer} {element}"), "usize".into()],
        _ => vec![format!("{pointer} {pointee}")],
    }
}

/// The types that each exported function of the library takes and gives, by its source.
fn in_library() -> BTreeMap<String, (Vec<String>, String)> {
    let text = source("crates/polar_c_c/src/lib.rt");
    let exported = text.split("pub extern \"C\" fn ").skip(1);
    exported
        .map(|part| {
            let (name, rest) = part.split_once('(').expect("arguments");
            let (arguments, rest) = rest.split_once(')').expect("the arguments' end");
            let result = rest.trim_start().strip_prefix("->").expect("a result").split_whitespace().next().expect("a type");
            let kinds = arguments.split(',').filter_map(|argument| argument.split_once(':')).flat_map(|(_, kind)| passed(kind.trim()));
            (name.trim().into(), (kinds.collect(), result.into()))
        })
        .collect()
}

#[test]
fn the_header_says_the_same() {
    assert_eq!(declared(), in_header());
}

#[test]
fn the_library_says_the_same() {
    let kinds = |call: Call| (call.arguments.into_iter().map(|(_, kind)| kind).collect(), call.result);
    let declared: BTreeMap<String, (Vec<String>, String)> = declared().into_iter().map(|(name, call)| (name, kinds(call))).collect();
    assert_eq!(declared, in_library());
}

/// A struct's fields in order, as name and type in Rust's words, by the struct's name in Rust.
type Structs = BTreeMap<String, Vec<(String, String)>>;

fn declared_structs() -> Structs {
    let fields = |all: &[(&str, &str)]| all.iter().map(|(name, kind)| (name.to_string(), kind.to_string())).collect();
    SHAPES.iter().map(|shape| (shape.name.into(), fields(shape.fields))).collect()
}

/// Every struct of the header: `typedef struct { uint32_t offset; .. } polar_ray_record;`.
fn structs_in_header() -> Structs {
    let text = without_comments(&source("include/polar.h"));
    let field = |field: &str| {
        let (kind, name) = field.trim().rsplit_once(' ').expect("a type and a name");
        (name.to_string(), rust_name(kind.trim()).to_string())
    };
    let of_struct = |part: &str| {
        let (fields, rest) = part.split_once('}').expect("the fields' end");
        let name = rest.split(';').next().expect("a name").trim();
        (rust_name(name).to_string(), fields.split_terminator(';').filter(|f| !f.trim().is_empty()).map(field).collect())
    };
    text.split("typedef struct {").skip(1).map(of_struct).collect()
}

/// The structs of a source in Rattle that are laid out as C lays them out.
fn structs_in_library(path: &str) -> Structs {
    let text: String = source(path).lines().map(|line| line.split("//").next().expect("a line").to_owned() + "\n").collect();
    let field = |field: &str| {
        let (name, kind) = field.trim().strip_prefix("pub ").expect("a field for all").split_once(':').expect("a type");
        (name.trim().to_string(), kind.trim().to_string())
    };
    let of_struct = |part: &str| {
        let (head, rest) = part.split_once('{').expect("fields");
        let name = head.trim().rsplit(' ').next().expect("a name");
        let fields = rest.split_once('}').expect("the fields' end").0;
        (name.to_string(), fields.split(',').filter(|f| !f.trim().is_empty()).map(field).collect())
    };
    text.split("#[repr(C)]").skip(1).map(of_struct).collect()
}

#[test]
fn the_header_has_the_same_structs() {
    assert_eq!(declared_structs(), structs_in_header());
}

#[test]
fn the_library_has_the_same_structs() {
    assert_eq!(declared_structs(), structs_in_library("crates/index/src/lib.rt"));
}

/// An entry of the stretch list has as many words in the header, in the library and here.
#[test]
fn an_entry_has_the_same_words() {
    let words = polar_sys::ENTRY_WORDS;
    assert!(source("include/polar.h").contains(&format!("#define POLAR_ENTRY_WORDS {words}u\n")));
    assert!(source("crates/stretches/src/lib.rt").contains(&format!("pub const PER_ENTRY: usize = {words};\n")));
}

/// Two words, one after the other, and nothing else.
#[test]
fn a_record_is_two_words() {
    assert_eq!(
        declared_structs(),
        [("RayRecord".into(), [("offset", "u32"), ("before", "u32")].map(|(n, t)| (n.into(), t.into())).into())].into()
    );
    assert_eq!((size_of::<RayRecord>(), align_of::<RayRecord>()), (8, 4));
    assert_eq!((offset_of!(RayRecord, offset), offset_of!(RayRecord, before)), (0, 4));
}
