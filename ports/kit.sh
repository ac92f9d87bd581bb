# Read by the scripts beside it: the repository, and the kit's compiler with the tools that it holds.
say() { printf 'ports: %s\n' "$*"; }
die() {
    say "$*" >&2
    exit 1
}

root=$(cd "$(dirname "$0")/.." && pwd -P) || exit 1
target=$root/target
kit=$(rt doc 2>/dev/null) || die "rt does not run: the Rattle toolchain is needed"
# another kit in its place, as ports/refusals tries one
kit=${PORTS_KIT:-${kit%/*}}
machine=$(uname -m)
toolchain=$kit/toolchain
clang=$toolchain/bin/clang
[ -x "$clang" ] || die "the kit at $kit has no clang"

# The kit's clang is LLVM's tools in one file: it does what the name says that it is called by. Writes a script that calls it so and prints
# the script's name. (No link: rt ci refuses links below the repository.)
tool() { # NAME
    mkdir -p "$target/ports-llvm"
    printf '#!/bin/bash\nPORTS_TOOL=%s exec -a %s "%s" "$@"\n' "$1" "$1" "$clang" >"$target/ports-llvm/$1"
    chmod +x "$target/ports-llvm/$1"
    "$target/ports-llvm/$1" --version 2>/dev/null | grep -q -e LLVM -e LLD || die "the kit's clang has no $1 in it"
    printf '%s\n' "$target/ports-llvm/$1"
}

# The functions that include/osd.h declares, one to a line.
declared() {
    awk '{ while (1) {
               if (inside) { i = index($0, "*/"); if (!i) next; $0 = substr($0, i + 2); inside = 0 }
               i = index($0, "/*"); if (!i) break
               before = substr($0, 1, i - 1); rest = substr($0, i + 2); j = index(rest, "*/")
               if (j) $0 = before substr(rest, j + 2); else { $0 = before; inside = 1; break }
           }
           if (match($0, /osd_[a-z0-9_]+\(/)) print substr($0, RSTART, RLENGTH - 1) }' "$root/include/osd.h"
}
