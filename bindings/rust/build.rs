//! Finds the C library: where `IWARP_LIB_DIR` says, or by `pkg-config`. README.md names the variables.
use std::env;
use std::process::{exit, Command};

/// The version that this crate was written for: a library of another major number has another interface.
const LEAST: &str = "1.3.0";
const BELOW: &str = "2";

fn main() {
    for name in ["IWARP_LIB_DIR", "IWARP_INCLUDE_DIR", "IWARP_STATIC", "PKG_CONFIG", "PKG_CONFIG_PATH"] {
        println!("cargo:rerun-if-env-changed={name}");
    }
    let flags = match env::var("IWARP_LIB_DIR") {
        Ok(folder) => given(&folder),
        Err(_) => asked(),
    };
    for folder in &flags.libraries {
        println!("cargo:rustc-link-search=native={folder}");
    }
    let kind = if is_static() { "static=" } else { "dylib=" };
    println!("cargo:rustc-link-lib={kind}iwarp");
    if let Some(folder) = flags.headers.first() {
        println!("cargo:include={folder}");
        println!("cargo:rustc-env=IWARP_INCLUDE_DIR={folder}");
    }
}

/// Where the libraries and the headers stand.
struct Flags {
    libraries: Vec<String>,
    headers: Vec<String>,
}

/// Whether the library is to be inside the program.
fn is_static() -> bool {
    env::var("IWARP_STATIC").is_ok_and(|word| word != "0")
}

/// The folders that the variables name. The header is looked for beside the library's folder if none is named.
fn given(folder: &str) -> Flags {
    let header = env::var("IWARP_INCLUDE_DIR").unwrap_or_else(|_| format!("{folder}/../include"));
    Flags { libraries: vec![folder.to_string()], headers: vec![header] }
}

/// The folders that pkg-config tells.
fn asked() -> Flags {
    let program = env::var("PKG_CONFIG").unwrap_or_else(|_| "pkg-config".to_string());
    let mut command = Command::new(&program);
    // (so that it tells folders that the compiler knows too)
    command.env("PKG_CONFIG_ALLOW_SYSTEM_LIBS", "1").env("PKG_CONFIG_ALLOW_SYSTEM_CFLAGS", "1");
    command.args(["--libs", "--cflags", &format!("iwarp >= {LEAST}"), &format!("iwarp < {BELOW}")]);
    let told = match command.output() {
        Ok(told) if told.status.success() => String::from_utf8_lossy(&told.stdout).into_owned(),
        Ok(told) => not_found(&String::from_utf8_lossy(&told.stderr)),
        Err(error) => not_found(&format!("{program}: {error}")),
    };
    let after = |flag| told.split_whitespace().filter_map(|word| word.strip_prefix(flag)).map(str::to_string).collect();
    Flags { libraries: after("-L"), headers: after("-I") }
}

fn not_found(why: &str) -> ! {
    eprintln!(
        "The C library iwarp was not found.\n\n{}\n\n\
         Install it (`tools/install PREFIX` of its repository, or an archive of its release), and set\n\
         PKG_CONFIG_PATH to PREFIX/lib/pkgconfig, or IWARP_LIB_DIR to the folder of libiwarp.so and libiwarp.a.",
        why.trim()
    );
    exit(1)
}
