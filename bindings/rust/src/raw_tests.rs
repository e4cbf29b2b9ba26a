//! Compares the declarations with those of `iwarp.h`, by a C compiler: each number, each struct with its fields, each prototype.
use super::*;
use std::collections::BTreeSet;
use std::fmt::Write as _;
use std::io::Write as _;
use std::path::Path;
use std::process::{Command, Stdio};
use std::{env, fs};

pub(crate) struct Struct {
    pub name: &'static str,
    pub size: usize,
    pub align: usize,
    pub fields: &'static [(&'static str, usize, usize)],
}

pub(crate) struct Function {
    pub name: &'static str,
    pub parameters: &'static [&'static str],
    pub result: &'static str,
}

/// What a type is in C.
pub(crate) trait InC {
    const NAME: &'static str;
}

macro_rules! in_c {
    ($($kind:ty = $name:literal,)*) => {
        $(impl InC for $kind {
            const NAME: &'static str = $name;
        })*
    };
}

in_c! {
    () = "void",
    i32 = "int32_t",
    u32 = "uint32_t",
    u64 = "uint64_t",
    usize = "size_t",
    *mut u32 = "uint32_t *",
    *mut usize = "size_t *",
    *mut u8 = "uint8_t *",
    *const u8 = "const uint8_t *",
    *mut *mut u8 = "uint8_t **",
    *mut *const c_char = "const char **",
    *mut iwarp = "struct iwarp *",
    *mut iwarp_buffer = "struct iwarp_buffer *",
    *mut iwarp_memory = "struct iwarp_memory *",
    *mut iwarp_facts = "struct iwarp_facts *",
    *mut iwarp_told = "struct iwarp_told *",
    *mut iwarp_event = "struct iwarp_event *",
    *mut iwarp_emission = "struct iwarp_emission *",
    *mut iwarp_filling = "struct iwarp_filling *",
    *mut iwarp_progress = "struct iwarp_progress *",
    *mut iwarp_region = "struct iwarp_region *",
    *mut iwarp_peer = "struct iwarp_peer *",
    *const iwarp_options = "const struct iwarp_options *",
    *const iwarp_posting = "const struct iwarp_posting *",
    *const iwarp_registration = "const struct iwarp_registration *",
    *const iwarp_limits = "const struct iwarp_limits *",
}

/// A C program that compiles only if the header says the same.
fn program() -> String {
    let mut text = "#include <iwarp.h>\n".to_string();
    for (name, value) in CONSTANTS {
        writeln!(text, "_Static_assert({name} == {value}, \"{name}\");").unwrap();
    }
    for Struct { name, size, align, fields } in STRUCTS {
        writeln!(text, "_Static_assert(sizeof(struct {name}) == {size}, \"{name}\");").unwrap();
        writeln!(text, "_Static_assert(_Alignof(struct {name}) == {align}, \"{name}\");").unwrap();
        for (field, at, size) in *fields {
            writeln!(text, "_Static_assert(offsetof(struct {name}, {field}) == {at}, \"{name}.{field}\");").unwrap();
            writeln!(text, "_Static_assert(sizeof(((struct {name} *)0)->{field}) == {size}, \"{name}.{field}\");")
                .unwrap();
        }
    }
    for Function { name, parameters, result } in FUNCTIONS {
        let parameters = if parameters.is_empty() { "void".to_string() } else { parameters.join(", ") };
        writeln!(text, "{result} (*const is_{name})({parameters}) = {name};").unwrap();
    }
    text
}

/// The words of a text that begin with a prefix, and end where a letter, a digit or a `_` does not follow.
fn words<'text>(text: &'text str, prefix: &'text str) -> impl Iterator<Item = &'text str> {
    text.split(|c: char| !c.is_ascii_alphanumeric() && c != '_').filter(move |word| word.starts_with(prefix))
}

fn without_comments(text: &str) -> String {
    text.split("/*").map(|part| part.split_once("*/").map_or(part, |(_, rest)| rest)).collect()
}

/// The names of this module that the header does not have, and those of the header that this module does not have.
fn differences(header: &str) -> Vec<String> {
    let text = without_comments(header);
    // What only C has: inline functions for texts, null pointers and postings, the names of enums, initial values, what a compiler is
    // told, and the guard.
    let own = BTreeSet::from([
        "iwarp_text",
        "iwarp_fault_text",
        "iwarp_octets",
        "iwarp_out",
        "iwarp_posting_of",
        "iwarp_message",
        "iwarp_right",
        "IWARP_CLOSED",
        "IWARP_NO_BUFFER",
        "IWARP_NO_HEADERS",
        "IWARP_NO_ATTRIBUTES",
        "IWARP_CHECKED",
        "IWARP_NONNULL",
        "IWARP_H",
    ]);
    let theirs: BTreeSet<&str> =
        words(&text, "IWARP_").chain(words(&text, "iwarp")).filter(|word| !own.contains(word)).collect();
    let ours: BTreeSet<&str> = (CONSTANTS.iter().map(|(name, _)| *name))
        .chain(STRUCTS.iter().map(|it| it.name))
        .chain(FUNCTIONS.iter().map(|it| it.name))
        .collect();
    ours.symmetric_difference(&theirs).map(|name| name.to_string()).collect()
}

fn folder_of_the_header() -> &'static Path {
    Path::new(env!("IWARP_INCLUDE_DIR"))
}

/// Has the C compiler judge a program. Returns what it says against it.
fn refused(program: &str) -> Option<String> {
    let compiler = env::var("CC").unwrap_or_else(|_| "cc".to_string());
    let mut judging = Command::new(compiler)
        .args(["-std=c11", "-Wall", "-Wextra", "-Werror", "-fsyntax-only", "-x", "c", "-I"])
        .arg(folder_of_the_header())
        .arg("-")
        .stdin(Stdio::piped())
        .stderr(Stdio::piped())
        .spawn()
        .expect("a C compiler");
    judging.stdin.take().unwrap().write_all(program.as_bytes()).unwrap();
    let judged = judging.wait_with_output().unwrap();
    (!judged.status.success()).then(|| String::from_utf8_lossy(&judged.stderr).into_owned())
}

#[test]
fn declarations_are_those_of_the_header() {
    let header = fs::read_to_string(folder_of_the_header().join("iwarp.h")).unwrap();
    assert_eq!(differences(&header), Vec::<String>::new());
    assert_eq!(refused(&program()), None);
}

/// What differs is found: a number, an offset, a size, a parameter and a result.
#[test]
fn what_differs_is_found() {
    let program = program();
    for (ours, others) in [
        ("IWARP_NOT_LENT == 39", "IWARP_NOT_LENT == 40"),
        ("offsetof(struct iwarp_event, to) == 40", "offsetof(struct iwarp_event, to) == 44"),
        ("sizeof(struct iwarp_told) == 40", "sizeof(struct iwarp_told) == 44"),
        (
            "is_iwarp_post_recv)(struct iwarp *, uint32_t, size_t)",
            "is_iwarp_post_recv)(struct iwarp *, uint32_t, uint32_t)",
        ),
        ("void (*const is_iwarp_free)", "int32_t (*const is_iwarp_free)"),
    ] {
        assert!(program.contains(ours), "{ours}");
        assert!(refused(&program.replace(ours, others)).is_some(), "{others}");
    }
    assert_eq!(differences("int32_t iwarp_later(void);").iter().filter(|name| *name == "iwarp_later").count(), 1);
}

/// The library's, the header's and this crate's.
#[test]
fn versions_agree() {
    let parts = env!("CARGO_PKG_VERSION").split('.').map(|part| part.parse::<u32>().unwrap());
    assert_eq!(parts.fold(0, |number, part| 100 * number + part), IWARP_VERSION);
    assert_eq!(crate::version(), IWARP_VERSION);
}
