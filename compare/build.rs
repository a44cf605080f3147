//! Lays out a module tree in OUT_DIR: every store-io file of the folder STORE_IO byte for byte, a stand-in for
//! each engine file that is missing there, and after four of the files an accessor of ours (beside/).

use std::fs;
use std::path::{Path, PathBuf};

/// The engine's modules, by the path of their file under the engine's src.
const ENGINE: &[&str] = &[
    "completion.rs",
    "domain/mod.rs",
    "exec.rs",
    "flusher.rs",
    "frontier.rs",
    "io.rs",
    "layout.rs",
    "mapped.rs",
    "optable.rs",
    "queue_core.rs",
    "region.rs",
    "regionmap.rs",
    "store.rs",
    "submitter/mod.rs",
];

/// Engine files that the others import, and that a stand-in replaces where the folder lacks them.
const MISSING: &[&str] = &[
    "batch.rs",
    "gate.rs",
    "lifecycle.rs",
    "options.rs",
    "receipt.rs",
    "report.rs",
    "scan.rs",
    "settle.rs",
    "slot_handle.rs",
    "slots.rs",
    "space.rs",
    "stats.rs",
    "submitter/durable.rs",
    "sync.rs",
    "v2.rs",
];

/// Crates that are missing whole: their modules stand at the root, which bears the crates' names.
const CORE: &[&str] =
    &["align.rs", "class.rs", "decide.rs", "errno.rs", "error.rs", "evidence.rs", "id.rs", "observe.rs"];
const FORMAT: &[&str] = &["footprint.rs", "meta.rs", "meta2.rs", "slot.rs"];

/// Reads a file, or stops the build with its name.
fn read(path: &Path) -> String {
    fs::read_to_string(path).unwrap_or_else(|e| panic!("{}: {e}", path.display()))
}

/// Writes `text` at `path`, its folder made first.
fn write(path: &Path, text: &str) {
    if let Some(dir) = path.parent() {
        fs::create_dir_all(dir).expect("a folder in OUT_DIR");
    }
    fs::write(path, text).expect("a file in OUT_DIR");
}

/// The module's name: the file's stem, or its folder's for mod.rs.
fn module(rel: &str) -> &str {
    rel.strip_suffix("/mod.rs").or(rel.strip_suffix(".rs")).unwrap_or(rel)
}

/// One line of the module tree.
fn declare(name: &str, path: &Path) -> String {
    format!("#[allow(warnings, clippy::all)]\n#[path = {:?}]\npub mod {name};\n", path.display().to_string())
}

/// The text of an engine file that is in the folder, with the accessor that belongs beside it.
fn engine_text(src: &Path, here: &Path, rel: &str) -> String {
    let mut text = read(&src.join(rel));
    let beside = here.join("beside").join(format!("{}.rs", module(rel)));
    if beside.exists() {
        text.push('\n');
        text.push_str(&read(&beside));
    }
    text
}

/// The text of a file that may be missing: the folder's own where it has one, else the stand-in.
fn missing_text(src: &Path, here: &Path, rel: &str) -> String {
    let own = src.join(rel);
    if own.exists() {
        return read(&own);
    }
    read(&here.join("stand-ins/engine").join(rel))
}

/// Places the stand-ins of a crate that is missing whole.
fn place_crate(here: &Path, out: &Path, krate: &str, files: &[&str], tree: &mut String) {
    for rel in files {
        let at = out.join(krate).join(rel);
        write(&at, &read(&here.join("stand-ins").join(krate).join(rel)));
        tree.push_str(&declare(module(rel), &at));
    }
}

fn main() {
    println!("cargo::rerun-if-env-changed=STORE_IO");
    println!("cargo::rerun-if-changed=stand-ins");
    println!("cargo::rerun-if-changed=beside");
    println!("cargo::rustc-check-cfg=cfg(loom)");
    let folder = std::env::var("STORE_IO").expect("STORE_IO names the folder that holds crates/store-io-engine");
    println!("cargo::rerun-if-changed={folder}");
    let src = Path::new(&folder).join("crates/store-io-engine/src");
    let here = PathBuf::from(std::env::var("CARGO_MANIFEST_DIR").expect("cargo sets it"));
    let out = PathBuf::from(std::env::var("OUT_DIR").expect("cargo sets it"));
    let mut tree = String::new();
    for rel in ENGINE {
        let at = out.join("engine").join(rel);
        write(&at, &engine_text(&src, &here, rel));
        tree.push_str(&declare(module(rel), &at));
    }
    for rel in MISSING {
        let at = out.join("engine").join(rel);
        write(&at, &missing_text(&src, &here, rel));
        if !rel.contains('/') {
            tree.push_str(&declare(module(rel), &at));
        }
    }
    place_crate(&here, &out, "core", CORE, &mut tree);
    place_crate(&here, &out, "format", FORMAT, &mut tree);
    let buf = out.join("buf.rs");
    write(&buf, &read(&here.join("stand-ins/store_io_buf.rs")));
    tree.push_str(&declare("buf", &buf));
    let platform = out.join("platform.rs");
    write(&platform, &read(&Path::new(&folder).join("crates/store-io-platform/src/lib.rs")));
    tree.push_str(&declare("platform", &platform));
    write(&out.join("tree.rs"), &tree);
}
