//! Makes the methods of the sources, by Python 3.11, where the crate lies in a checkout. Finds libs2union.a: in the
//! folder S2UNION_LIB_DIR, whose headers are in ../include, or where pkg-config says that it is, or made of its source,
//! which is beside the crate in what tools/portable makes. src/geo.c, and that source, are compiled by the C compiler's
//! driver: CC and AR, which are cc and ar if they aren't set.
use std::env;
use std::path::{Path, PathBuf};
use std::process::Command;

fn main() {
    for name in ["S2UNION_LIB_DIR", "PKG_CONFIG_PATH", "CC", "AR"] {
        println!("cargo:rerun-if-env-changed={name}");
    }
    let own = folder_of("CARGO_MANIFEST_DIR");
    make_methods(&own);
    let mut sources = vec![own.join("src/geo.c")];
    let folder = in_folder().or_else(|| of_source(&own, &mut sources)).or_else(by_pkg_config).expect(
        "libs2union.a is not found: set S2UNION_LIB_DIR to its folder, or PKG_CONFIG_PATH to that of s2union.pc",
    );
    compile(&sources, &folder.include);
    if let Some(library) = folder.library {
        println!("cargo:rerun-if-changed={}/libs2union.a", library.display());
        println!("cargo:rustc-link-search=native={}", library.display());
        println!("cargo:rustc-link-lib=static=s2union");
    }
    if env::var("CARGO_CFG_TARGET_FAMILY").map_or(false, |family| family == "unix") {
        println!("cargo:rustc-link-lib=m");
    }
}

/// In a checkout, makes the methods of the sources, which a package has in them: see docs/EXTENDING.md.
fn make_methods(own: &Path) {
    let (top, sources, root) = (own.join("../.."), own.join("src"), own.join("crate.rs"));
    let maker = top.join("tools/methods.py");
    if !(maker.exists() && root.exists()) {
        return;
    }
    let mut make = Command::new("python3");
    make.arg("-B").arg(maker).arg(folder_of("OUT_DIR")).args([&root, &sources.join("calls.rs")]);
    for source in std::fs::read_dir(&sources).expect("sources have a folder").flatten() {
        make.args(source.file_name().to_str().filter(|name| name.ends_with(".rs")).map(|name| sources.join(name)));
    }
    for source in [root, sources, top.join("tools"), top.join("crates/s2union_c")] {
        println!("cargo:rerun-if-changed={}", source.display());
    }
    run(&mut make);
}

fn folder_of(variable: &str) -> PathBuf {
    PathBuf::from(env::var_os(variable).expect("cargo runs this"))
}

/// Where the headers are, and the library, if it isn't made here.
struct Folders {
    library: Option<PathBuf>,
    include: PathBuf,
}

fn in_folder() -> Option<Folders> {
    let library = PathBuf::from(env::var_os("S2UNION_LIB_DIR")?);
    let include = library.join("../include");
    Some(Folders { library: Some(library), include })
}

/// Adds the library's source, if that is there.
fn of_source(own: &Path, sources: &mut Vec<PathBuf>) -> Option<Folders> {
    let source = own.parent()?.join("src");
    if !source.join("s2union.S").exists() {
        return None;
    }
    println!("cargo:rerun-if-changed={}", source.display());
    sources.extend(["s2union.S", "blocks.c", "heap.c"].map(|name| source.join(name)));
    Some(Folders { library: None, include: source.with_file_name("include") })
}

fn by_pkg_config() -> Option<Folders> {
    let said = |name: &str| {
        let said = Command::new("pkg-config").args([&format!("--variable={name}"), "s2union"]).output().ok()?;
        let folder = String::from_utf8(said.stdout).ok()?;
        (said.status.success() && !folder.trim().is_empty()).then(|| PathBuf::from(folder.trim()))
    };
    Some(Folders { library: Some(said("libdir")?), include: said("includedir")? })
}

/// Makes libs2union_rust.a. As S2 has it, no multiplication and addition become one operation.
fn compile(sources: &[PathBuf], include: &Path) {
    let made = folder_of("OUT_DIR");
    let library = made.join("libs2union_rust.a");
    let _ = std::fs::remove_file(&library);
    let mut archive = Command::new(env::var_os("AR").unwrap_or_else(|| "ar".into()));
    archive.arg("crs").arg(library);
    let header = include.join("s2union_cover.h");
    if header.exists() {
        println!("cargo:rerun-if-changed={}", header.display());
    }
    for source in sources {
        println!("cargo:rerun-if-changed={}", source.display());
        let object = made.join(source.with_extension("o").file_name().expect("a source has a name"));
        let mut compiler = Command::new(env::var_os("CC").unwrap_or_else(|| "cc".into()));
        compiler.args(["-O2", "-fPIC", "-ffp-contract=off", "-c", "-I"]).arg(include);
        run(compiler.arg(source).arg("-o").arg(&object));
        archive.arg(object);
    }
    run(&mut archive);
    println!("cargo:rustc-link-search=native={}", made.display());
    println!("cargo:rustc-link-lib=static=s2union_rust");
}

fn run(command: &mut Command) {
    let status = command.status().unwrap_or_else(|error| panic!("{command:?}: {error}"));
    assert!(status.success(), "{command:?}: {status}");
}
