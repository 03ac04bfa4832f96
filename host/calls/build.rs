//! Links the archives that `host/archives` wrote: those that `host/archives.txt` names. Whoever depends on this crate links them with it.

fn main() {
    let manifest = std::env::var("CARGO_MANIFEST_DIR").expect("cargo names the package's folder");
    let (archives, names) = (format!("{manifest}/../../target/staticlib"), format!("{manifest}/../archives.txt"));
    println!("cargo:rustc-link-search=native={archives}");
    for name in std::fs::read_to_string(&names).expect("the list of archives").lines().rev() {
        println!("cargo:rustc-link-lib=static={name}");
    }
    println!("cargo:rerun-if-changed={archives}");
    println!("cargo:rerun-if-changed={names}");
}
