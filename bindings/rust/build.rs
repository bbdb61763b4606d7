// Links `libborsh.a`, which is in the folder that BORSH_LIB names, or else where `bindings/c/build` leaves it, or beside this crate in
// the archive of `bindings/pack`.
use std::path::{Path, PathBuf};

fn main() {
    println!("cargo:rerun-if-env-changed=BORSH_LIB");
    let here = Path::new(env!("CARGO_MANIFEST_DIR"));
    let folders: Vec<PathBuf> = match std::env::var_os("BORSH_LIB") {
        Some(folder) => vec![folder.into()],
        None => vec![here.join("../out"), here.join("../lib")],
    };
    let found = folders.iter().find(|it| it.join("libborsh.a").is_file());
    let folder = found.unwrap_or_else(|| {
        panic!("there is no libborsh.a in {folders:?}: run bindings/c/build, or name its folder by BORSH_LIB")
    });
    println!(
        "cargo:rerun-if-changed={}",
        folder.join("libborsh.a").display()
    );
    println!("cargo:rustc-link-search=native={}", folder.display());
    println!("cargo:rustc-link-lib=static=borsh");
}
