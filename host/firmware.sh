#!/bin/sh
# The firmware that README.md shows, taken out of it, compiled with a board around it, and run on packets whose right answers are known.
# HOST_ARCHIVE names the archive; another file than README.md may be given.
set -eu
host=$(cd "$(dirname "$0")" && pwd)
top=$(dirname "$host")
built=$top/target/host
page=${1:-$top/README.md}

stop() {
    echo "host: $*" >&2
    exit 1
}

[ -f "$page" ] || stop "there is no $page to take the firmware from"
archive=${HOST_ARCHIVE:-$built/libfirmware.a}
[ -f "$archive" ] || stop "there is no $archive: tools/hostlib firmware makes it"

mkdir -p "$built"
awk '/A firmware in C/ { found = 1 } inside && /^```$/ { exit } inside { print } found && /^```c$/ { inside = 1 }' "$page" \
    >"$built/firmware.c"
[ -s "$built/firmware.c" ] || stop "$page shows no firmware: one stands below the words 'A firmware in C', in a block from \`\`\`c"

gcc -std=c99 -O2 -g -Wall -Wextra -Werror -pedantic -fsanitize=address,undefined -fno-sanitize-recover=all -I"$top/include" \
    -o "$built/firmware" "$built/firmware.c" "$host/board.c" "$archive" || stop "the firmware of $page does not compile"
"$built/firmware" <"$host/firmware.in" >"$built/firmware.out" || stop "the firmware of $page does not run to the end of host/firmware.in"
diff "$host/firmware.out" "$built/firmware.out" >&2 || stop "the firmware of $page sends other packets (>) than host/firmware.out has (<)"
echo "${page#"$top"/}: its firmware of $(wc -l <"$built/firmware.c") lines sent the $(wc -l <"$host/firmware.out") right packets"
