//! Links the proved library: libffi.a, and other archives whose names begin so, in the folder RATTLE_LIB_DIR.

fn main() {
    let folder = std::env::var("RATTLE_LIB_DIR")
        .unwrap_or_else(|_| format!("{}/../../target/staticlib", env!("CARGO_MANIFEST_DIR")));
    println!("cargo:rerun-if-env-changed=RATTLE_LIB_DIR");
    println!("cargo:rerun-if-changed={folder}");
    println!("cargo:rustc-link-search=native={folder}");
    let archive = |name: &str| Some(name.strip_prefix("lib")?.strip_suffix(".a")?.to_string());
    let files = std::fs::read_dir(&folder).into_iter().flatten().flatten();
    let names = files.filter_map(|file| archive(file.file_name().to_str()?));
    let names: Vec<String> = names.filter(|name| name.starts_with("ffi")).collect();
    if !names.contains(&"ffi".to_string()) {
        eprintln!("{folder}/libffi.a is missing: build it, or set RATTLE_LIB_DIR to its folder");
        std::process::exit(1);
    }
    for name in names {
        println!("cargo:rerun-if-changed={folder}/lib{name}.a");
        println!("cargo:rustc-link-lib=static={name}");
    }
}
