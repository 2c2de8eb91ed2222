#!/bin/bash
# Replays every script of a folder and compares our transcript with the one recorded beside it, line by line. Lines that begin with # or
# state are for people, and so are the texts after error and best-effort: of the former the word alone is compared, the latter are left out.
# Use: tools/replay_all.sh FOLDER [NAME..]    after (cd crates/replay && rt run -- data/heartbeats.script) has built the program; NAME without .script picks runs of the folder.
set -u
folder=$1
shift
program=$(dirname "$0")/../crates/replay/out/replay
[ -x "$program" ] || { echo "no program: (cd crates/replay && rt run -- data/heartbeats.script) makes it" >&2; exit 2; }

compared() {
    grep -v -e '^#' -e '^state' -e '^best-effort' "$1" | sed 's/^error .*/error/'
}

if [ $# -gt 0 ]; then names=("$@"); else names=(); for s in "$folder"/*.script; do names+=("$(basename "$s" .script)"); done; fi
ours=$(mktemp)
trap 'rm -f "$ours"' EXIT
agreeing=0
differing=0
for name in "${names[@]}"; do
    [ -f "$folder/$name.transcript" ] || { echo "$name has no transcript"; continue; }
    "$program" < "$folder/$name.script" > "$ours" 2>&1
    if where=$(diff <(compared "$folder/$name.transcript") <(compared "$ours")); then
        agreeing=$((agreeing + 1))
    else
        differing=$((differing + 1))
        echo "$name differs: $(head -2 <<< "$where" | tail -1 | cut -c1-120)"
    fi
done
echo "runs that agree $agreeing, that differ $differing"
