// Links the static library that `bench/run-encoding` made, whose folder it names.
fn main() {
    let library = std::env::var("ZULGOAD_LIB").expect("ZULGOAD_LIB is the folder of libexports.a");
    println!("cargo:rustc-link-search=native={library}");
    println!("cargo:rustc-link-lib=static=exports");
}
