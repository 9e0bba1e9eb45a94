//! Says where the archive is that bin/library made and include/station.rs links, and notes which compiler builds the Rust side.
use std::env;
use std::error::Error;
use std::path::Path;
use std::process::Command;

fn main() -> Result<(), Box<dyn Error>> {
    let folder = env::var("CARGO_MANIFEST_DIR")? + "/../target/staticlib";
    let archive = format!("{folder}/libstation.a");
    if !Path::new(&archive).exists() {
        return Err("there is no target/staticlib/libstation.a yet: harness/run.sh makes it".into());
    }
    println!("cargo:rustc-link-search=native={folder}");
    // without this line cargo keeps the old code when the archive changes
    println!("cargo:rerun-if-changed={archive}");

    let said = Command::new(env::var("RUSTC")?).arg("-vV").output()?;
    let said = String::from_utf8(said.stdout)?;
    let field = |name| said.lines().find_map(|line| line.strip_prefix(name)).unwrap_or("unknown");
    println!("cargo:rustc-env=HARNESS_COMPILER=rustc {}, LLVM {}", field("release: "), field("LLVM version: "));
    Ok(())
}
