#!/usr/bin/env bash
# The checks beside the proofs, over the program as it is built: the rows, the second readings of
# the rules and of the grammar, the list of definitions, and other tools. All parts run, also behind
# one that failed. The last line says how much passed; the status is 1 where a part failed.
set -u
cd "$(dirname "$0")/.." || exit 1
log=$(mktemp) || exit 1
trap 'rm -f "$log"' EXIT
failed=()

if ! ./firc emit examples/xor.fir >/dev/null; then
  echo "checks: FAILED: there is no program"
  exit 1
fi

# Runs a part of that name, and keeps what it says.
part() {
  local name=$1
  shift
  "$@" 2>&1 | tee "$log"
  [ "${PIPESTATUS[0]}" -eq 0 ] || failed+=("$name")
}

# Sets `counted` to how many passed by the last part's line of that form; one of none failed.
count() {
  counted=$(sed -n "s/^$2\$/\\1/p" "$log" | tail -n 1)
  counted=${counted:-0}
  if [ "$counted" -eq 0 ] && [[ " ${failed[*]:-} " != *" $1 "* ]]; then
    echo "checks: $1 counted nothing"
    failed+=("$1")
  fi
}

# Adds to `texts` on how many Verilog texts the last part found nothing.
count_texts() {
  count "$1" 'verilog [a-z]*: the same on \([0-9]*\) texts.*'
  texts=$((texts + counted))
}

rows=0 circuits=0 texts=0 faults=0 names=0 types=0 inferred=0 costs=0 driven=0 changed=0 skipped=
if command -v python3 >/dev/null 2>&1; then
  part rows python3 checks/rows.py
  count rows 'rows: \([0-9]*\) passed.*'
  rows=$counted
  part operators python3 checks/operator_rows.py --check
  part memory_examples python3 checks/memory_examples.py
  part grammar python3 checks/grammar.py check
  part cuts python3 checks/grammar.py cuts
  part circuits python3 checks/circuits.py 200
  count circuits 'circuits: the same on \([0-9]*\) circuits.*'
  circuits=$counted
  part faults python3 checks/circuits.py faults 200
  count faults 'faults: the same on \([0-9]*\) circuits.*'
  faults=$counted
  part names python3 checks/names.py 200
  count names 'names: the same on \([0-9]*\) circuits.*'
  names=$counted
  part types python3 checks/typed.py 200
  count types 'types: the same on \([0-9]*\) circuits.*'
  types=$counted
  part inferred python3 checks/inferred.py 200
  count inferred 'inferred: the same on \([0-9]*\) circuits.*'
  inferred=$counted
  part costs python3 checks/costs.py 100
  count costs 'costs: the same on \([0-9]*\) circuits.*'
  costs=$counted
  part driven python3 checks/driven.py check 200
  count driven 'driven: the same on \([0-9]*\) circuits.*'
  driven=$counted
  part verilog_rows python3 checks/verilog_rows.py --check
  part verilog_runs python3 checks/verilog_runs.py --check
  part verilog_texts python3 checks/verilog_texts.py 200 400
  count_texts verilog_texts
  part verilog_text_forms python3 checks/verilog_texts.py forms 60
  count_texts verilog_text_forms
  part verilog_simulated python3 checks/verilog_simulated.py 100
  count_texts verilog_simulated
  part verilog_examples python3 checks/verilog_simulated.py examples
  part verilog_tools python3 checks/verilog_tools.py 40
  part refusals python3 checks/refusals.py 1000
  count refusals 'refusals: \([0-9]*\) runs .*'
  changed=$counted
  part definitions python3 checks/definitions.py --check
  part row_trees python3 checks/row_trees.py --check
else
  skipped=" (python3 is not installed)"
  echo "checks: python3 is not installed; of the checks all but interop are skipped"
fi
part forms checks/verilog_forms.sh
part interop checks/interop.sh
count interop 'interop: \([0-9]*\) examples passed'

outcome="passed$skipped"
[ "${#failed[@]}" -eq 0 ] || outcome="FAILED: ${failed[*]}$skipped"
echo "checks: $rows rows, $circuits circuits, $faults with faults," \
  "$names circuits of names, $types circuits of types," \
  "$inferred circuits of resets and widths, $costs circuits of costs," \
  "$driven circuits of leaves that are driven, $texts Verilog texts," \
  "$changed changed texts and fronts, $counted examples: $outcome"
[ "${#failed[@]}" -eq 0 ]
