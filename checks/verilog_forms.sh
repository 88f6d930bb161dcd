#!/usr/bin/env bash
# Reads the text with every form of the written subset, checks/verilog/forms.v, with Icarus Verilog,
# Verilator and Yosys. It is the text that the prover computes of the tree with every form
# (crates/ver_emit/proofs/LayoutRows.antt): that is compared first. A tool that is not installed is
# skipped; one that is there and refuses the text fails the check.
set -u
cd "$(dirname "$0")/.." || exit 1
text=checks/verilog/forms.v
failed=0 read=0
fail() { echo "verilog forms: $*"; failed=1; }
has() { command -v "$1" >/dev/null 2>&1 || { echo "verilog forms: $1 is not installed, skipped"; return 1; }; }

# The lines of the row's text: those between `forms_text =` and the next empty line.
sed -n '/^forms_text =/,/^$/s/^ *codes "\(.*\)\\n"\( ++\)\?$/\1/p' \
  crates/ver_emit/proofs/LayoutRows.antt | diff - "$text" ||
  fail "the text is not that of crates/ver_emit/proofs/LayoutRows.antt"
if has iverilog; then
  iverilog -g2005 -t null -Wall "$text" || fail "iverilog refuses it"
  read=$((read + 1))
fi
if has verilator; then
  verilator --lint-only --default-language 1364-2005 -Wno-fatal "$text" || fail "verilator refuses it"
  read=$((read + 1))
fi
if has yosys; then
  yosys -q -p "read_verilog $text; hierarchy -check; proc; check -assert" || fail "yosys refuses it"
  read=$((read + 1))
fi
[ "$failed" -eq 0 ] && echo "verilog forms: read by $read tools"
exit "$failed"
