// Sets the cfg `leveldb` where LevelDB's C header and library are installed. BAVOLINESK_LEVELDB=0 leaves it out.
use std::env;
use std::path::Path;

fn main() {
    println!("cargo:rustc-check-cfg=cfg(leveldb)");
    println!("cargo:rerun-if-env-changed=BAVOLINESK_LEVELDB");
    let header = Path::new("/usr/include/leveldb/c.h");
    println!("cargo:rerun-if-changed={}", header.display());
    let wanted = env::var("BAVOLINESK_LEVELDB").map_or(true, |word| word != "0");
    if wanted && header.is_file() {
        println!("cargo:rustc-cfg=leveldb");
        println!("cargo:rustc-link-lib=dylib=leveldb");
    }
}
