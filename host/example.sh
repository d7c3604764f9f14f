#!/bin/sh
# The request that include/bellaqsum_viewer.h shows, taken out of it, compiled with the key on a desk around it, and run.
# HOST_ARCHIVE and HOST_VIEWER_ARCHIVE name the archives.
set -eu
host=$(cd "$(dirname "$0")" && pwd)
top=$(dirname "$host")
built=$top/target/host
header=$top/include/bellaqsum_viewer.h

stop() {
    echo "host: $*" >&2
    exit 1
}

mkdir -p "$built"
{
    printf '#include "bellaqsum_viewer.h"\n#include <string.h>\n'
    awk '/A whole request/ { found = 1 } found && sub(/^ \*   /, "") { print } found && /^}/ { exit }' "$header"
} >"$built/example.c"
grep -q '^}' "$built/example.c" || stop "$header shows no request: one stands below the words 'A whole request', from a void on to a }"

gcc -std=c99 -O2 -g -Wall -Wextra -Werror -pedantic -fsanitize=address,undefined -fno-sanitize-recover=all -I"$top/include" \
    -o "$built/example" "$built/example.c" "$host/desk.c" "${HOST_ARCHIVE:-$built/libfirmware.a}" \
    "${HOST_VIEWER_ARCHIVE:-$built/libviewer_calls.a}" || stop "the request of $header does not compile"
"$built/example" >"$built/example.out" || stop "the request of $header does not run to its end"
diff "$host/example.out" "$built/example.out" >&2 || stop "the request of $header goes otherwise (>) than host/example.out has it (<)"
echo "${header#"$top"/}: its request of $(wc -l <"$built/example.c") lines found the $(grep -c ^key "$host/example.out") right entries"
