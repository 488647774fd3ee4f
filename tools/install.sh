#!/bin/sh
# Proves the programs, runs each once, and installs them and their man pages.
#
#   sh tools/install.sh                   # below /usr/local, as root
#   sh tools/install.sh "$HOME/.local"    # below another folder
#
# `rt run` alone proves the crates below a program one after another. So the crates that the programs need, and no others, are copied to a folder of their own, where
# `rt all check` proves them side by side: as many as there are processors, and 3 GB of memory for each. It has a line for each crate that it has been through. Their folders
# out/ are moved there and back, also where it is interrupted, so this and every other command of rt begins with what is proved.
set -eu
prefix=${1:-/usr/local}
programs="bson_recast bson_migrate bson_stream bson_infer bson_evolve"
cd "$(dirname "$0")/.."
mkdir -p "$prefix/bin" "$prefix/share/man/man1"
if [ -d .git ]; then copy=$(mktemp -d "$PWD/.git/install.XXXXXX"); else copy=$(mktemp -d); fi
log=$(mktemp)

# The lines of crates.txt of the programs and of all crates below them.
lines_needed() {
    awk -v programs="$programs" '
        function need(name, count, others, i) {
            if (!(name in line) || name in needed) return
            needed[name]
            print line[name]
            count = split(below[name], others, " ")
            for (i = 1; i <= count; i++) need(others[i])
        }
        { sub(/#.*/, "") }
        NF { name = $1; sub(/:.*/, "", name); line[name] = $0; sub(/^[^:]*:/, ""); below[name] = $0 }
        END { count = split(programs, names, " "); for (i = 1; i <= count; i++) need(names[i]) }' crates.txt
}

# move_out FROM TO: what is proved of each crate that is needed.
move_out() {
    for name in $names
    do
        if [ -d "$1/crates/$name/out" ]; then rm -rf "$2/crates/$name/out" && mv "$1/crates/$name/out" "$2/crates/$name/out"; fi
    done
}

names=
trap 'move_out "$copy" .; rm -rf "$copy"' EXIT
trap 'exit 1' HUP INT TERM
lines_needed > "$copy/crates.txt"
for name in $(sed 's/[: ].*//' "$copy/crates.txt")
do
    mkdir -p "$copy/crates/$name"
    for part in src specs proofs
    do
        [ ! -e "crates/$name/$part" ] || cp -R "crates/$name/$part" "$copy/crates/$name"
    done
    names="$names $name"
done
move_out . "$copy"

count=$(($(wc -l < "$copy/crates.txt")))
jobs=$(awk -v most="$(nproc)" '/^MemAvailable/ { jobs = int($2 / 3000000) } END { print jobs < 1 ? 1 : jobs < most ? jobs : most }' /proc/meminfo)
begin=$(date +%s)
minutes() { echo $((($(date +%s) - begin) / 60)); }
fail() {
    echo "nothing was installed; $log has what rt says" >&2
    exit 1
}
echo "$count crates are to be proved, $jobs at a time"
(cd "$copy" && rt all check --jobs "$jobs" 2>&1 || echo failed > "$copy/failed") | tee "$log" | {
    done=0
    while read -r mark name rest
    do
        if [ "$mark" = "==" ] && [ "$name" != summary ] && [ -z "$rest" ]
        then
            done=$((done + 1))
            echo "$done of $count: $name, after $(minutes) minutes"
        fi
    done
}
if [ -e "$copy/failed" ]
then
    sed -n '/^== summary/,$p' "$log" | grep -v ': ok$' >&2 || tail -n 3 "$log" >&2
    fail
fi
move_out "$copy" .

echo "building and running the programs, after $(minutes) minutes"
# run NAME INPUT WORD..: builds the program and runs it once over the input of a crate's stored run.
run() {
    name=$1 input=crates/$2/stdin
    shift 2
    (cd "crates/$name" && rt run -- "$@" < "../../$input" > /dev/null 2>> "$log") || fail
}
run bson_recast bson_recast_output '{i:i32}'
run bson_migrate bson_migrate '{n:i32}'
run bson_stream bson_stream '{n:?i32}'
run bson_infer bson_infer_output
run bson_evolve bson_evolve '{n:u8}' '{n:u32,m:?string}'
for name in $programs
do
    install -m 755 "crates/$name/out/$name" "$prefix/bin"
    install -m 644 "docs/$name.1" "$prefix/share/man/man1"
done
rm -f "$log"
echo "installed below $prefix after $(minutes) minutes: $programs"
