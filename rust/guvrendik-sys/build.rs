//! Writes the header's numbers, structs and calls by pointer as Rust, and links the library.
//!
//! Where they are: `GUVRENDIK_INCLUDE_DIR` and `GUVRENDIK_LIB_DIR`; else this tree's `include/` and `delivered/`; else what
//! pkg-config says.

use std::path::{Path, PathBuf};
use std::process::Command;
use std::{env, fs};

fn main() {
    let (include, library) = places();
    let header = include.join("guvrendik.h");
    let text = fs::read_to_string(&header).unwrap_or_else(|error| panic!("{}: {error}", header.display()));
    let plain = without_comments(&text);
    let written = [numbers(&plain), structs(&plain), calls(&plain)].concat();
    let out = env::var("OUT_DIR").expect("cargo names OUT_DIR");
    fs::write(Path::new(&out).join("header.rs"), written).expect("OUT_DIR can be written");
    println!("cargo:rustc-link-search=native={}", library.display());
    println!("cargo:rustc-link-lib={}guvrendik", if library.join("libguvrendik.a").exists() { "static=" } else { "" });
    println!("cargo:rerun-if-changed={}", header.display());
    println!("cargo:rerun-if-changed={}", library.join("libguvrendik.a").display());
    println!("cargo:rerun-if-env-changed=GUVRENDIK_INCLUDE_DIR");
    println!("cargo:rerun-if-env-changed=GUVRENDIK_LIB_DIR");
}

/// The folders of the header and of the library.
fn places() -> (PathBuf, PathBuf) {
    let tree = Path::new(env!("CARGO_MANIFEST_DIR")).join("../..");
    let machine = env::var("CARGO_CFG_TARGET_ARCH").unwrap_or_default().replace('_', "-");
    let delivered = tree.join("delivered").join(machine);
    let place = |name: &str, own: PathBuf, file: &str, variable: &str| match env::var_os(name) {
        Some(place) => PathBuf::from(place),
        None if own.join(file).exists() => own,
        None => installed(variable),
    };
    (
        place("GUVRENDIK_INCLUDE_DIR", tree.join("include"), "guvrendik.h", "includedir"),
        place("GUVRENDIK_LIB_DIR", delivered, "libguvrendik.a", "libdir"),
    )
}

fn installed(variable: &str) -> PathBuf {
    let said = Command::new("pkg-config").arg(format!("--variable={variable}")).arg("guvrendik").output();
    let said = said.map(|output| String::from_utf8_lossy(&output.stdout).trim().to_owned()).unwrap_or_default();
    assert!(!said.is_empty(), "pkg-config has no guvrendik: set GUVRENDIK_INCLUDE_DIR and GUVRENDIK_LIB_DIR");
    PathBuf::from(said)
}

fn without_comments(text: &str) -> String {
    let mut parts = text.split("/*");
    let first = parts.next().unwrap_or_default().to_owned();
    parts.fold(first, |plain, part| plain + part.split_once("*/").map_or("", |(_, behind)| behind))
}

/// The name of a struct, `guvrendik_plan_verdict`, as Rust writes it.
fn type_name(name: &str) -> String {
    match name {
        "uint8_t" => "u8".into(),
        "uint32_t" => "u32".into(),
        "uint64_t" => "u64".into(),
        "size_t" => "usize".into(),
        _ => {
            let short = name.strip_prefix("guvrendik_").unwrap_or_else(|| panic!("{name}: an unknown type"));
            short.split('_').map(|word| word[..1].to_uppercase() + &word[1..]).collect()
        }
    }
}

/// `#define GUVRENDIK_NAME NUMBER`, and the rights, which stand in an enum.
fn numbers(text: &str) -> String {
    let number_of = |line: &str| {
        let words: Vec<&str> = line.trim().trim_end_matches(',').split_whitespace().collect();
        let (["#define", name, number] | [name, "=", number]) = words[..] else { return None };
        let (name, number) = (name.strip_prefix("GUVRENDIK_")?, number.parse::<u64>().ok()?);
        let kind = match name.split('_').next() {
            Some("LIMIT" | "TEXT" | "SIZE") => "usize",
            Some("REGISTER" | "PROPOSES") => "u64",
            _ if name == "MAX_MOMENT" => "u64",
            _ => "u32",
        };
        Some(format!("pub const {name}: {kind} = {number};\n"))
    };
    text.lines().filter_map(number_of).collect()
}

/// `typedef struct guvrendik_name { .. } guvrendik_name;`, each held to the header's size of it.
fn structs(text: &str) -> String {
    let one = |part: &str| {
        let (name, behind) = part.split_once('{').expect("a struct has fields");
        let (fields, _) = behind.split_once('}').expect("a struct ends");
        let (name, size) = (type_name(name.trim()), name.trim().trim_start_matches("guvrendik_").to_uppercase());
        let fields: String = fields.split(';').map(str::trim).filter(|field| !field.is_empty()).map(field).collect();
        format!(
            "#[repr(C)]\n#[derive(Clone, Copy, Debug, PartialEq, Eq)]\npub struct {name} {{\n{fields}}}\n\
             const _: () = assert!(core::mem::size_of::<{name}>() == SIZE_{size});\n"
        )
    };
    text.split("typedef struct ").skip(1).map(one).collect()
}

/// A type and its names, each of which may be an array.
fn field(field: &str) -> String {
    let (kind, names) = field.split_once(' ').expect("a field has a type");
    let kind = type_name(kind);
    let one = |name: &str| match name.trim().trim_end_matches(']').split_once('[') {
        Some((name, limit)) => format!("    pub {name}: [{kind}; {}],\n", limit.trim_start_matches("GUVRENDIK_")),
        None => format!("    pub {}: {kind},\n", name.trim()),
    };
    names.split(',').map(one).collect()
}

/// `void guvrendik_name_at(..);`, the calls by pointer.
fn calls(text: &str) -> String {
    let parameter = |parameter: &str| {
        let words = parameter.replace('*', " * ");
        match words.split_whitespace().collect::<Vec<&str>>()[..] {
            ["const", kind, "*", name] => format!("{name}: *const {}, ", type_name(kind)),
            [kind, "*", name] => format!("{name}: *mut {}, ", type_name(kind)),
            [kind, name] => format!("{name}: {}, ", type_name(kind)),
            _ => panic!("{parameter}: an unknown parameter"),
        }
    };
    let one = |part: &str| {
        let (name, behind) = part.split_once('(').expect("a call has parameters");
        let (parameters, _) = behind.split_once(')').expect("a call ends");
        format!("    pub fn guvrendik_{name}({});\n", parameters.split(',').map(parameter).collect::<String>())
    };
    format!("extern \"C\" {{\n{}}}\n", text.split("\nvoid guvrendik_").skip(1).map(one).collect::<String>())
}
