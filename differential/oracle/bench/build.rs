//! Links libbraidhatch.a of the folder that ARCHIVES names, into which tests/native puts it.

fn main() {
    println!("cargo:rerun-if-env-changed=ARCHIVES");
    let folder = std::env::var("ARCHIVES")
        .expect("ARCHIVES names the folder of the archives: differential/bench.sh");
    println!("cargo:rerun-if-changed={folder}/libbraidhatch.a");
    println!("cargo:rustc-link-search=native={folder}");
    println!("cargo:rustc-link-lib=static=braidhatch");
}
