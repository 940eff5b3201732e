# For the tools that run a program of the project; each sources this file. It sets `root`, and `program` once that is
# made, and has
#     stop STATUS WHY    says why under the tool's name, and ends
#     usage              says the tool's third line, which is its usage, and ends
#     readable FILE      stops where a file cannot be read
#     made NAME          proves and makes the program NAME where it is missing or old
root=$(cd "$(dirname "${BASH_SOURCE[0]}")/.." && pwd)
tool=$(basename "$0")

stop() {
    echo "$tool: $2" >&2
    exit "$1"
}
usage() {
    sed -n '3s/^# */usage: /p' "$0" >&2
    exit 2
}
readable() {
    [ -r "$1" ] && [ ! -d "$1" ] || stop 2 "cannot read $1"
}
stale() {
    [ ! -e "$program" ] || [ -n "$(find "$root/crates" -name out -prune -o -newer "$program" -type f -print -quit)" ]
}
made() {
    local log=$root/target/$1.log
    program=$root/target/bin/$1
    stale || return 0
    command -v rt > /dev/null || stop 3 "$program is missing or old, and there is no rt to make it"
    echo "$tool: proving and making the program, some minutes the first time; log in $log" >&2
    mkdir -p "$root/target"
    "$root/tools/make" "$1" > "$log" 2>&1 || { cat "$log" >&2; stop 3 "the program cannot be made"; }
}

command -v python3 > /dev/null || stop 3 "there is no python3 here"
