#!/usr/bin/env bash
# Simulates each example on the ticks of examples/NAME.trace against examples/NAME.expected; reads
# its emitted text with Icarus Verilog, Verilator and Yosys, and runs it with Icarus on the same
# ticks. A tool that is not installed is skipped; one that is there and refuses the text, or shows
# other values, fails the check. What Verilator warns of is listed, and fails nothing.
#
# usage: interop.sh [--program PATH]
#
# Without a program it runs the one that ./firc builds.
set -u
program=./firc
if [ "$#" -eq 2 ] && [ "$1" = --program ]; then
  program=$(realpath "$2") || exit 1
elif [ "$#" -ne 0 ]; then
  echo "usage: interop.sh [--program PATH]" >&2
  exit 2
fi
cd "$(dirname "$0")/.." || exit 1
work=$(mktemp -d) || exit 1
trap 'rm -rf "$work"' EXIT
failed=0
fail() { echo "interop: $*"; failed=1; }
has() { command -v "$1" >/dev/null 2>&1; }
tool() { has "$1" || echo "interop: $1 is not installed, skipped"; }
for name in python3 iverilog verilator yosys; do tool "$name"; done

if has python3; then
  python3 checks/expected.py --check || fail "traces or expected lines are not those of the sources"
fi

# Whether each register of the text has a block. The line of an array ends with its depth.
drives_registers() {
  awk '$1 == "reg" && $NF !~ /\]/ { held[$NF] }
    $1 == "always" { for (k = 2; k < NF && $k != "<="; k++) target = $k; delete held[target ";"] }
    END { for (r in held) exit 1 }' "$1"
}

# Writes a line for each warning of Verilator in a text: its kind, and the example.
warnings() {
  verilator --lint-only -Wall -Wno-fatal -Wno-DECLFILENAME -Wno-UNUSED \
    --default-language 1364-2005 "$1" 2>&1 | sed -n "s/^%Warning-\([A-Z]*\):.*/\1 $2/p"
}

# Lists how many warnings of each kind there are, and in which examples.
list_warnings() {
  sort "$work/warnings" | uniq -c | awk '
    { count[$2] += $1; names[$2] = names[$2] " " $3 }
    END {
      for (kind in count)
        print "interop: verilator warns of " kind ": " count[kind] " in" names[kind]
    }' | sort
}

examples=0
for source in examples/*.fir; do
  examples=$((examples + 1))
  name=$(basename "$source" .fir)
  trace="examples/$name.trace"
  expected="examples/$name.expected"
  text="$work/$name.v"
  "$program" sim "$source" "$trace" --state >"$work/$name.printed" &&
    diff "$expected" "$work/$name.printed" || fail "$name shows other values under firc sim"
  if ! "$program" emit "$source" >"$text"; then
    fail "firc refuses $source"
    continue
  fi
  if has iverilog; then
    iverilog -g2005 -t null "$text" || fail "iverilog refuses $name"
  fi
  if has verilator; then
    verilator --lint-only --default-language 1364-2005 "$text" || fail "verilator refuses $name"
    warnings "$text" "$name" >>"$work/warnings"
  fi
  if has yosys; then
    # A register without a block holds what it has from the start; `check -assert` refuses it as
    # used without a driver, so texts with one are read without that check.
    passes="hierarchy -check; proc"
    drives_registers "$text" && passes="$passes; check -assert"
    yosys -q -p "read_verilog $text; $passes" || fail "yosys refuses $name"
  fi
  if has iverilog && has vvp && has python3; then
    python3 checks/test_bench.py "$source" "$trace" >"$work/$name-bench.v" &&
      iverilog -g2005 -o "$work/$name.vvp" "$text" "$work/$name-bench.v" &&
      vvp -n "$work/$name.vvp" >"$work/$name.shown" &&
      diff "$expected" "$work/$name.shown" || fail "$name shows other values under iverilog"
  fi
done
has verilator && list_warnings
[ "$failed" -eq 0 ] && echo "interop: $examples examples passed"
exit "$failed"
