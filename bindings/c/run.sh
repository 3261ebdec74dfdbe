#!/usr/bin/env bash
# Header, what the library asks for, example, tests and the stack of every call, in C. The library is in FINDER_LIB_DIR, else where `tools/build cabinet` puts it.
set -euo pipefail
cd "$(dirname "$0")"
library=${FINDER_LIB_DIR:-../../target/staticlib}/libcabinet.a
warnings=(-Wall -Wextra -Wpedantic -Werror)
made=$(mktemp -d)
trap 'rm -rf "$made"' EXIT

for standard in c99 c11; do
    gcc -std=$standard "${warnings[@]}" -fsyntax-only -x c ../../include/finder.h
done
for standard in c++98 c++17; do
    g++ -std=$standard "${warnings[@]}" -fsyntax-only -x c++ ../../include/finder.h
done
echo "c header: C99, C11, C++98, C++17"

# What a cabinet's own C library has to bring.
asked=$(nm -u "$library" | awk '$1 == "U" { print $2 }' | sort -u)
[ "$asked" = memset ] || { echo "the library asks for other than memset alone: $asked"; exit 1; }
echo "c library: asks for memset alone"

gcc -std=c99 "${warnings[@]}" -I../../include example.c "$library" -o "$made/example"
diff <("$made/example") - <<'SHOWN'
border table: 0 0 1 2 3 1 2 3 4 5
best pattern: the first 3 readings
at the ceiling: 4 readings, not held now
SHOWN
echo "c example: shows what it should"

gcc -std=c99 -O1 -g "${warnings[@]}" -fsanitize=address,undefined -fno-sanitize-recover=all -I../../include -I../../bench \
    test_finder.c ../../bench/logs.c "$library" -o "$made/test_finder"
"$made/test_finder"

# Bound at the start, as in bench/run: the first call of a C library's function must not take more stack than the next.
gcc -std=gnu11 -O2 -pthread "${warnings[@]}" -Wl,-z,now -I../../include -I../../bench ../../bench/stack.c ../../bench/logs.c "$library" -o "$made/stack_use"
"$made/stack_use" >/dev/null
echo "c stack: no call takes more arrays than it may"
