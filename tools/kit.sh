# shellcheck shell=bash
# Sourced by scripts that build or run proved programs, or link proved archives: finds the Rattle kit from `rt` on the path.
# Sets `kit`, the kit's folder. kit_tool NAME prints the path of a program of the kit. proved_program FILE sets the array `run_words`, which
# runs a program that `rt` has built. At the top of the repository build_program and build_archive have `rt` prove and build.
if [ "$(uname -m)" != x86_64 ]; then
    echo "$0: the kit and the proved programs run on x86-64; this machine is $(uname -m)" >&2
    exit 2
fi
rt=$(command -v rt) || {
    echo "$0: \`rt\`, the Rattle kit's command, is not on the path: install the kit that README.md names and put its bin/ on PATH" >&2
    exit 2
}
kit=${RATTLE_HOME:-$(dirname "$(dirname "$(readlink -f "$rt")")")}

# kit_file NAME: a file of the kit's toolchain.
kit_file() {
    [ -e "$kit/toolchain/$1" ] || { echo "$0: the kit at $kit has no $1" >&2; return 1; }
    echo "$kit/toolchain/$1"
}
kit_tool() { kit_file "bin/$1"; }

# As `rt` runs it: by itself, under the system's loader and C library, which are all that it needs.
proved_program() {
    # shellcheck disable=SC2034 # the caller's
    run_words=("$1")
}

# newer_than FILE: prints a source that is newer, if there is one; fails where that cannot be known. What `rt` writes, below crates/NAME/out/,
# is no source.
newer_than() { find crates.txt crates/*/src crates/*/specs crates/*/proofs -newer "$1" -print -quit; }

# build_program NAME: crates/NAME/out/NAME, proved, for any processor of x86-64 (`rt` alone would count on x86-64-v2). It is run once, with
# nothing to read.
build_program() { (cd "crates/$1" && rt run --cpu x86-64) </dev/null; }

# build_archive NAME: target/staticlib/libNAME.a, proved. A crate is a library or an archive: the C functions of NAME are exported by
# the crate NAME_c.
build_archive() {
    (cd "crates/$1_c" && rt lib --cpu x86-64) </dev/null && mkdir -p target/staticlib &&
        cp "crates/$1_c/out/lib$1_c.a" "target/staticlib/lib$1.a"
}
