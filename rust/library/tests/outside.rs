//! A package outside this tree uses the crate by its path.

use std::process::Command;
use std::{env, fs};

/// This crate's folder.
const HERE: &str = env!("CARGO_MANIFEST_DIR");

#[test]
fn a_package_elsewhere() {
    let package = env::temp_dir().join(format!("sverdhyll-outside-{}", std::process::id()));
    fs::create_dir_all(package.join("src")).expect("a folder");
    let manifest = format!("[package]\nname = \"outside\"\nversion = \"1.0.0\"\nedition = \"2021\"\n[dependencies]\nsverdhyll = {{ path = \"{HERE}\" }}\n");
    fs::write(package.join("Cargo.toml"), manifest).expect("a manifest");
    fs::copy(
        format!("{HERE}/examples/check.rs"),
        package.join("src/main.rs"),
    )
    .expect("a program");
    let done = Command::new(env!("CARGO"))
        .args([
            "run",
            "--release",
            "--quiet",
            "--offline",
            "--target-dir",
            concat!(env!("CARGO_TARGET_TMPDIR"), "/outside"),
            "--",
        ])
        .args([
            format!("{HERE}/../../examples/swap.sy"),
            format!("{HERE}/../../examples/swap.response"),
        ])
        .current_dir(&package)
        .output()
        .expect("cargo");
    fs::remove_dir_all(&package).expect("removed");
    let said = "accepted: derived, and no constraint is false; points whose assumptions hold: 1, units spent: 24\nrules: 7 15 3 8\n";
    assert_eq!(
        String::from_utf8_lossy(&done.stdout),
        said,
        "{}",
        String::from_utf8_lossy(&done.stderr)
    );
}
