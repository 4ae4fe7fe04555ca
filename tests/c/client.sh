#!/bin/sh
# The header serves C++; the example in docs/C.md is examples/client.c; the examples in C compile, and print what they should; the
# multiplication in docs/FORMAT.md is that of the library.
set -e
cd "$(dirname "$0")/../.."
cc=${CC:-gcc}
to=$(mktemp -d)
trap 'rm -rf "$to"' EXIT

if command -v g++ >/dev/null; then
    printf '#include "vaultgarlic.h"\n' >"$to/header.cc"
    g++ -fsyntax-only -Wall -Wextra -Wpedantic -Werror -Iinclude "$to/header.cc"
fi

# The code blocks in C of a document.
code() {
    awk '/^```c$/ { inside = 1; next } /^```$/ { inside = 0 } inside' "$1"
}

# Compiles a file and runs it with arguments; what it prints is held to the file `expected`.
prints() {
    source=$1
    shift
    "$cc" -std=c11 -O2 -Wall -Wextra -Wpedantic -Werror -Iinclude -I"$to" "$source" -Ltarget/staticlib -lvaultgarlic -o "$to/example"
    "$to/example" "$@" >"$to/printed"
    diff "$to/expected" "$to/printed" >&2 || { echo "$source prints something else" >&2; exit 1; }
}

# The one code block in C of the document, and the session below it.
code docs/C.md >"$to/example.c"
diff "$to/example.c" examples/client.c >&2 || { echo 'docs/C.md and examples/client.c differ' >&2; exit 1; }
awk '/^    \$ \.\/[a-z_]* / { inside = 1; next } !/^    / { inside = 0 } inside { print substr($0, 5) }' docs/C.md >"$to/expected"
prints examples/client.c examples/e.pkg examples/aba.formula

cat >"$to/expected" <<'END'
item first second shared at word
1 1 1 1 1 aaa
2 1 2 1 1 aab
a sum over the relations after 2 steps
no such sum after 2 steps
END
prints examples/in_memory.c

code docs/FORMAT.md >"$to/format.c"
echo '65025 products and 65025 sums in GF(256)' >"$to/expected"
prints tests/c/products.c
echo 'the examples in C run'
