# For the tests that link the library: target/staticlib/libhost.a, built once for all of them, since the build proves the crate
# `host` again. To be sourced, in the repository's root.
. tests/part.sh
build_archive() {
    local said
    said=$(cd crates/host && rt lib 2>&1) || { echo "$said"; return 1; }
    mkdir -p target/staticlib && cp crates/host/out/libhost.a target/staticlib/libhost.a
}
[ -e target/staticlib/libhost.a ] || rm -f target/tests/archive.done
part archive build_archive crates/*/src crates/*/specs crates/*/proofs crates.txt
