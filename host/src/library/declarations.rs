//! A test that the functions of the library's crate, the prototypes of the header and the declarations in `slotplan_lib.rs` agree.

use crate::library::slotplan_lib::HEADER;
use crate::repository::places::{read_text, top};

/// A function with the types of its parameters and of its answer, as Rust writes them.
#[derive(Clone, Debug, PartialEq, Eq, PartialOrd, Ord)]
struct Declared {
    name: String,
    parameters: Vec<String>,
    answer: String,
}

/// The text without comments, which begin and end with these.
fn without_comments(text: &str, begin: &str, end: &str) -> String {
    let mut parts = text.split(begin);
    let mut rest = parts.next().unwrap_or_default().to_string();
    for part in parts {
        rest += " ";
        rest += part.split_once(end).map_or("", |(_, after)| after);
    }
    rest
}

/// The function that begins the text: `NAME(PARAMETERS)`, and what follows.
fn head(text: &str) -> Option<(&str, Vec<&str>, &str)> {
    let (name, rest) = text.split_once('(')?;
    let (parameters, rest) = rest.split_once(')')?;
    let parameters = parameters.split(',').map(str::trim);
    let parameters = parameters.filter(|parameter| !parameter.is_empty());
    Some((name.trim(), parameters.collect(), rest.trim_start()))
}

/// What is behind `->`, up to a space or a sign.
fn answer_of(rest: &str) -> Option<String> {
    let answer = rest.strip_prefix("->")?.trim_start();
    let end = answer.find(|sign: char| !sign.is_alphanumeric())?;
    Some(answer[..end].to_string())
}

/// A parameter is a name, a colon and a type.
fn type_of(parameter: &str) -> Option<&str> {
    Some(parameter.split_once(':')?.1.trim())
}

/// A slice is a pointer and a length.
fn types_of_slice(written: &str) -> Vec<String> {
    let slice = |begin: &str| written.strip_prefix(begin)?.strip_suffix(']');
    let pointer = match (slice("&mut ["), slice("&[")) {
        (Some(element), _) => format!("*mut {element}"),
        (None, Some(element)) => format!("*const {element}"),
        (None, None) => return vec![written.to_string()],
    };
    vec![pointer, "usize".to_string()]
}

/// The functions with the attribute, with slices as parameters. A lifetime says nothing that a host in C could see.
fn of_crate(text: &str) -> Option<Vec<Declared>> {
    let text = without_comments(text, "//", "\n")
        .replace("<'a>", "")
        .replace("&'a ", "&");
    let functions = text.split("#[unsafe(no_mangle)]").skip(1);
    let declared = functions.map(|function| {
        let function = function.trim_start().strip_prefix("pub extern \"C\" fn ")?;
        let (name, parameters, rest) = head(function)?;
        let types: Option<Vec<&str>> = parameters.into_iter().map(type_of).collect();
        Some(Declared {
            name: name.to_string(),
            parameters: types?.into_iter().flat_map(types_of_slice).collect(),
            answer: answer_of(rest)?,
        })
    });
    declared.collect()
}

/// The functions between the braces of `extern "C"`.
fn of_extern_block(text: &str) -> Option<Vec<Declared>> {
    let (_, block) = text.split_once("extern \"C\" {")?;
    let (block, _) = block.split_once('}')?;
    let declared = block.split("pub fn ").skip(1).map(|function| {
        let (name, parameters, rest) = head(function)?;
        let types = parameters.into_iter().map(type_of);
        let types: Option<Vec<String>> = types.map(|written| Some(written?.to_string())).collect();
        Some(Declared {
            name: name.to_string(),
            parameters: types?,
            answer: answer_of(rest)?,
        })
    });
    declared.collect()
}

fn type_of_c(written: &str) -> Option<&'static str> {
    match written {
        "uint8_t" => Some("u8"),
        "uint16_t" => Some("u16"),
        "uint32_t" => Some("u32"),
        "size_t" => Some("usize"),
        "slotplan_answer" => Some("u64"),
        _ => None,
    }
}

/// A parameter of C: a type, and a name with a star before it if it is a pointer.
fn parameter_of_c(parameter: &str) -> Option<String> {
    let (constant, rest) = match parameter.strip_prefix("const ") {
        Some(rest) => ("const", rest),
        None => ("mut", parameter),
    };
    let (written, name) = rest.trim().split_once(' ')?;
    let of_c = type_of_c(written)?;
    if name.trim_start().starts_with('*') {
        return Some(format!("*{constant} {of_c}"));
    }
    Some(of_c.to_string())
}

/// The prototypes, each with the answer of 64 bits that the header names once.
fn of_header(text: &str) -> Option<Vec<Declared>> {
    let text = without_comments(text, "/*", "*/");
    let (_, prototypes) = text.split_once("typedef uint64_t slotplan_answer;")?;
    let functions = prototypes.split("slotplan_answer ").skip(1);
    let declared = functions.map(|function| {
        let (name, parameters, rest) = head(function)?;
        rest.strip_prefix(';')?;
        let types: Option<Vec<String>> = parameters.into_iter().map(parameter_of_c).collect();
        Some(Declared {
            name: name.to_string(),
            parameters: types?,
            answer: type_of_c("slotplan_answer")?.to_string(),
        })
    });
    declared.collect()
}

/// Sorted by name, so that the order of the files does not matter.
fn declared_in(path: &str, read: fn(&str) -> Option<Vec<Declared>>) -> Vec<Declared> {
    let text = read_text(&top().join(path));
    let mut declared =
        read(&text).unwrap_or_else(|| panic!("{path}: a declaration that is not understood"));
    declared.sort();
    declared
}

#[test]
fn the_crate_the_header_and_this_program_declare_the_same() {
    let header = declared_in(&format!("include/{HEADER}"), of_header);
    let host = declared_in("host/src/library/slotplan_lib.rs", of_extern_block);
    assert_eq!(header, host);
    assert_eq!(header.len(), 11);
    let of_crate = declared_in(
        concat!("crates/", env!("SLOTPLAN_CRATE"), "/src/lib.rt"),
        of_crate,
    );
    assert_eq!(of_crate, header);
}

const OF_CRATE: &str = "use x::Y;
/// #[unsafe(no_mangle)] is no attribute here.
#[unsafe(no_mangle)]
pub extern \"C\" fn first(plan: &[u8], slot: u32) -> u64 { told(plan) }
fn told(plan: &[u8]) -> u64 { 0 }
#[unsafe(no_mangle)]
pub extern \"C\" fn second(
    counters: &mut [u32], // all (576)
    number: u8,
    deadline: u16,
) -> u64
    ensures { told result ≡ of counters.new (5 + 0) }
{
    0
}
";

const OF_HEADER: &str = "/* slotplan_answer is (here) no function; */
typedef uint64_t slotplan_answer;
#define SLOTPLAN_VALUE(answer) (answer)
slotplan_answer first(const uint8_t *plan, size_t plan_length, uint32_t slot);
/* Checks: 1. */
slotplan_answer second(uint32_t *counters,
                       size_t counters_length, uint8_t number, uint16_t deadline);
";

const OF_HOST: &str = "mod declared {
    extern \"C\" {
        pub fn first(plan: *const u8, length: usize, slot: u32) -> u64;
        pub fn second(
            counters: *mut u32,
            lent: usize,
            number: u8,
            deadline: u16,
        ) -> u64;
    }
}
";

#[test]
fn the_three_forms_are_read_alike() {
    let declared = |name: &str, parameters: &[&str]| Declared {
        name: name.to_string(),
        parameters: parameters.iter().map(|&of| of.to_string()).collect(),
        answer: "u64".to_string(),
    };
    let expected = vec![
        declared("first", &["*const u8", "usize", "u32"]),
        declared("second", &["*mut u32", "usize", "u8", "u16"]),
    ];
    let expected = Some(expected);
    assert_eq!(of_crate(OF_CRATE), expected);
    assert_eq!(of_header(OF_HEADER), expected);
    assert_eq!(of_extern_block(OF_HOST), expected);
}

#[test]
fn another_type_shows() {
    let expected = of_crate(OF_CRATE);
    for (old, new) in [("&mut [u32]", "&[u32]"), ("[u8]", "[u16]"), ("u8,", "u16,")] {
        assert_ne!(of_crate(&OF_CRATE.replacen(old, new, 1)), expected);
    }
    for (old, new) in [
        ("const ", ""),
        ("uint32_t", "uint16_t"),
        (" second", " third"),
    ] {
        assert_ne!(of_header(&OF_HEADER.replacen(old, new, 1)), expected);
    }
    for (old, new) in [("*const", "*mut"), ("lent: usize,", ""), ("u64", "u32")] {
        assert_ne!(of_extern_block(&OF_HOST.replacen(old, new, 1)), expected);
    }
}
