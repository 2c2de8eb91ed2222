#!/usr/bin/env bash
# Plants bugs, one at a time: tries the edits of tools/planted/CRATE as must-fail edits of that crate, in a copy of the repository, so that
# nothing here is changed. It takes what is committed. Prints for each whether it was refused, and the first goal that failed; all that
# rt must-fail said stands in PLANT_LOGS/CRATE.log, where PLANT_LOGS names a folder. For all goals that failed make the edit by hand in a
# copy, and check the function by itself: rt check --only FUNCTION.
#   tools/plant.sh [CRATE ..]      all crates that have some, where none is named
set -euo pipefail
here=$(cd "$(dirname "$0")/.." && pwd)
copy=$(mktemp -d)
logs=${PLANT_LOGS:-$copy}
mkdir -p "$logs"
logs=$(cd "$logs" && pwd)
trap 'rm -rf "$copy"' EXIT
git clone -q "$here" "$copy/repo"
cd "$copy/repo"
rm -rf crates/*/must-fail
if [ $# -eq 0 ]; then
    set -- $(ls tools/planted)
fi
for crate in "$@"; do
    cp -r "tools/planted/$crate" "crates/$crate/must-fail"
    rt must-fail "$crate" > "$logs/$crate.log" 2>&1 || true
    grep "must-fail $crate/" "$logs/$crate.log" || true
done
