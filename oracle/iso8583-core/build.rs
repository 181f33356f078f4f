//! Writes the module list of iso8583-core over the folder that holds its sources, so that they are compiled where they lie, unchanged.
use std::{env, fs, path::Path};

const MODULES: [&str; 7] = ["field", "bitmap_simd", "error", "mti", "encoding", "validation", "message"];

fn main() {
    let folder = env::var("ISO8583_CORE").expect("ISO8583_CORE names the folder with field.rs, message.rs and the others");
    let folder = fs::canonicalize(&folder).expect("the folder that ISO8583_CORE names");
    let mut list = String::new();
    for module in MODULES {
        let file = folder.join(format!("{module}.rs"));
        println!("cargo:rerun-if-changed={}", file.display());
        list += &format!("#[path = {file:?}]\npub mod {module};\n");
    }
    println!("cargo:rerun-if-env-changed=ISO8583_CORE");
    fs::write(Path::new(&env::var("OUT_DIR").unwrap()).join("modules.rs"), list).unwrap();
}
