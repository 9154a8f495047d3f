// Links the port: the archive that bin/build-library writes. PORT_LIB is the folder that holds it.
fn main() {
    let folder = std::env::var("PORT_LIB").expect("PORT_LIB names the folder of libdepot_link.a");
    println!("cargo:rerun-if-env-changed=PORT_LIB");
    println!("cargo:rerun-if-changed={folder}/libdepot_link.a");
    println!("cargo:rustc-link-search=native={folder}");
    println!("cargo:rustc-link-lib=static=depot_link");
}
