# For scripts that build C or Rust programs over the library's archive; they source it with `root` set to the repository's folder.
# Proves the library, writes crates/panel/out/libpanel.a for plain x86-64, and sets
#   archive   its path
#   cc        the C compiler, empty where there is none
#   cxx       the C++ compiler beside it, likewise
# A thing that is missing is named, with where to get it. CC and CXX in the environment go before what is found.

missing() { # what, and what is not done without it
    echo "missing: $1; not done: $2"
    lacking=1
}
lacking=''

[ "$(uname -m)" = x86_64 ] || { missing "an x86-64 processor: rt and the archive are for it, and this is $(uname -m)" "everything here"; exit 2; }
command -v rt >/dev/null || { missing "rt, the command of the Rattle toolchain" "everything here"; exit 2; }
mkdir -p "$root/target"
archive=$root/crates/panel/out/libpanel.a
(cd "$root/crates/panel" && rt lib --cpu x86-64 && [ -f out/libpanel.a ]) >"$root/target/archive.log" 2>&1 || { tail -n 20 "$root/target/archive.log"; echo "the archive is not written: see target/archive.log"; exit 1; }

found() { command -v "$1" 2>/dev/null; }
cc=${CC:-$(found gcc || found cc || found clang)}
cxx=${CXX:-$(found g++ || found c++ || found clang++)}
[ -n "$cc" ] || missing "a C compiler (on Debian, the package gcc)" "the programs in C"
[ -n "$cxx" ] || missing "a C++ compiler (on Debian, the package g++)" "the header as C++"

# link PROGRAM SOURCE: a C program over the header and the archive
link() {
    "$cc" -std=c99 -O2 -Wall -Wextra -pedantic -Werror -I"$root/include" "$2" "$archive" -o "$1"
}
