#!/usr/bin/env bash
# Tries more wrong bodies than the merge gate does. Each edit of checks/wrong_bodies/CRATE turns the
# meaning of a function, as those of crates/CRATE/must-fail do. It is laid into a copy of the last
# commit, in place of those there, and the prover must refuse it. Each takes some seconds to a
# minute of a processor. The last line tells apart those that are refused only because a proof file
# names what the edit took away: they say little of the contract.
#
# usage: wrong_bodies.sh [CRATE..]
set -u
cd "$(dirname "$0")/.." || exit 1
names=("$@")
if [ "$#" -eq 0 ]; then
  mapfile -t names < <(sed -n 's/^\([a-z0-9_]*\)[^#]*:.*/\1/p' crates.txt)
fi
work=$(mktemp -d) || exit 1
trap 'rm -rf "$work"' EXIT
git clone -q . "$work/clone" || exit 1

laid=0
crates=()
for name in "${names[@]}"; do
  if [ ! -d "$work/clone/crates/$name" ]; then
    echo "wrong bodies: there is no crate $name"
    exit 1
  fi
  edits=(checks/wrong_bodies/"$name"/*.edit)
  if [ ! -e "${edits[0]}" ]; then
    echo "wrong bodies: $name has none"
    continue
  fi
  rm -rf "$work/clone/crates/$name/must-fail"
  mkdir "$work/clone/crates/$name/must-fail"
  cp "${edits[@]}" "$work/clone/crates/$name/must-fail/" || exit 1
  laid=$((laid + ${#edits[@]}))
  crates+=("$name")
done

status=0
if [ "$laid" -gt 0 ]; then
  (cd "$work/clone" && rt must-fail "${crates[@]}") 2>&1 | tee "$work/log"
  status=${PIPESTATUS[0]}
fi

# How many lines of the log begin so.
count() {
  if [ -e "$work/log" ]; then grep -c "^$1" "$work/log"; else echo 0; fi
}

told='rt: must-fail .*\.edit: refused, as it must be'
refused=$(count "$told")
by_names=$(count "$told (only because a proof file names")
echo "wrong bodies: $((refused - by_names)) refused," \
  "$by_names only because a proof names what the edit took away, $((laid - refused)) not"
[ "$status" -eq 0 ] && [ "$refused" -eq "$laid" ]
