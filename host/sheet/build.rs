//! Notes what `--version` tells. (The archives are linked by host/calls.)

use std::process::Command;

fn main() {
    let manifest = std::env::var("CARGO_MANIFEST_DIR").expect("cargo names the package's folder");
    note_version(&manifest);
}

/// The version is the newest in the list of changes; commit and toolchain are asked for, and may not be known.
fn note_version(manifest: &str) {
    let changes = format!("{manifest}/../../CHANGELOG.md");
    let list = std::fs::read_to_string(&changes).unwrap_or_default();
    let version = list.lines().find_map(|line| line.strip_prefix("## ")?.split([' ', ',']).next()).unwrap_or("of no number");
    let commit = said("git", &["-C", manifest, "rev-parse", "--short=12", "HEAD"]).map(|commit| {
        let changed = said("git", &["-C", manifest, "status", "--porcelain", "--untracked-files=no", "--", "../.."]).is_some();
        format!("commit {commit}{}", if changed { " with changes" } else { "" })
    });
    println!("cargo:rustc-env=SHEET_VERSION={version}");
    println!("cargo:rustc-env=SHEET_COMMIT={}", commit.unwrap_or("commit not known".to_string()));
    println!("cargo:rustc-env=SHEET_KIT={}", said("rt", &["version"]).unwrap_or("toolchain not known".to_string()));
    println!("cargo:rerun-if-changed={changes}");
    // What a commit changes; without these the commit would stay the one of the first build.
    println!("cargo:rerun-if-changed={manifest}/src");
    if let Some(log) = said("git", &["-C", manifest, "rev-parse", "--path-format=absolute", "--git-path", "logs/HEAD"]) {
        println!("cargo:rerun-if-changed={log}");
    }
}

/// The first line that a command prints; nothing where it fails or prints nothing.
fn said(command: &str, words: &[&str]) -> Option<String> {
    let done = Command::new(command).args(words).output().ok().filter(|done| done.status.success())?;
    let text = String::from_utf8(done.stdout).ok()?;
    text.lines().next().map(str::trim).filter(|line| !line.is_empty()).map(str::to_string)
}
