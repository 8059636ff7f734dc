//! Brings the generator's nine files, unchanged, into the build folder and declares their modules.
//! With the feature `compare` it links the library made by `rt lib` in crates/generator too.

use std::{env, fs, path::Path, path::PathBuf};

/// Module and file of those that stand at the crate's root.
const ROOT: [(&str, &str); 6] = [
    ("collections", "collections.rs"),
    ("context", "context.rs"),
    ("extern_paths", "extern_paths.rs"),
    ("ident", "ident.rs"),
    ("message_graph", "message_graph.rs"),
    ("path", "path.rs"),
];

/// code_generator.rs and the two modules it declares itself. A module found by `#[path]` looks for
/// its own modules beside itself, so the three files stand in one folder.
const CODE_GENERATOR: [&str; 3] = [
    "code_generator.rs",
    "code_generator/c_escaping.rs",
    "code_generator/syntax.rs",
];

fn main() {
    bring_generator();
    if env::var_os("CARGO_FEATURE_COMPARE").is_some() {
        link_library();
    }
}

/// Links libgenerator.a out of the folder that CEMILOVASH_LIB names.
fn link_library() {
    println!("cargo:rerun-if-env-changed=CEMILOVASH_LIB");
    let folder = env::var_os("CEMILOVASH_LIB")
        .map(PathBuf::from)
        .unwrap_or_else(|| {
            Path::new(&env::var_os("CARGO_MANIFEST_DIR").unwrap()).join("../crates/generator/out")
        });
    println!(
        "cargo:rerun-if-changed={}",
        folder.join("libgenerator.a").display()
    );
    println!("cargo:rustc-link-search=native={}", folder.display());
    println!("cargo:rustc-link-lib=static=generator");
    println!("cargo:rustc-check-cfg=cfg(names_call)");
    let archive = fs::read(folder.join("libgenerator.a")).unwrap_or_default();
    let symbol = b"cemilovash_names";
    if archive.windows(symbol.len()).any(|part| part == symbol) {
        println!("cargo:rustc-cfg=names_call");
    }
}

fn bring_generator() {
    println!("cargo:rerun-if-env-changed=PROST_BUILD_SRC");
    let given = env::var_os("PROST_BUILD_SRC")
        .map(PathBuf::from)
        .unwrap_or_else(|| {
            Path::new(&env::var_os("CARGO_MANIFEST_DIR").unwrap()).join("../../shared/docs/src")
        });
    let source = if given.join("src").is_dir() {
        given.join("src")
    } else {
        given
    };
    let out = PathBuf::from(env::var_os("OUT_DIR").unwrap());
    let generator = out.join("generator");
    fs::create_dir_all(&generator).unwrap();

    let mut modules = String::new();
    for (module, file) in ROOT {
        let copy = bring(&source.join(file), &generator);
        modules.push_str(&declare(module, &copy));
    }
    for file in CODE_GENERATOR {
        bring(&source.join(file), &generator);
    }
    modules.push_str(&declare(
        "code_generator",
        &generator.join("code_generator.rs"),
    ));
    fs::write(out.join("modules.rs"), modules).unwrap();
    // c_escaping.rs once more, under a parent of ours, since code_generator.rs keeps it private.
    fs::write(
        out.join("c_escaping_module.rs"),
        declare("c_escaping", &generator.join("c_escaping.rs")),
    )
    .unwrap();
}

/// Copies a file byte for byte into the folder.
fn bring(file: &Path, folder: &Path) -> PathBuf {
    println!("cargo:rerun-if-changed={}", file.display());
    let bytes = fs::read(file).unwrap_or_else(|e| {
        panic!(
            "{}: {e} (set PROST_BUILD_SRC to the generator's folder)",
            file.display()
        )
    });
    let copy = folder.join(file.file_name().unwrap());
    fs::write(&copy, bytes).unwrap();
    copy
}

fn declare(module: &str, file: &Path) -> String {
    format!(
        "#[allow(dead_code)]\n#[path = {:?}]\nmod {module};\n",
        file.display().to_string()
    )
}
