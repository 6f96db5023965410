#!/usr/bin/env bash
# What no contract can say of the program `curve`: what it writes for good and bad lines, and its status.
set -euo pipefail
cd "$(dirname "$0")/.."
tools/build curve || { echo 'curve: not built' >&2; exit 1; }
curve=target/bin/curve
fail() { printf 'curve: %s\n' "$*" >&2; exit 1; }

# expects STATUS INPUT OUTPUT
expects() {
  local status=0 out
  out=$(printf "$2" | "$curve" 2>/dev/null) || status=$?
  [ "$status" = "$1" ] || fail "status $status for input: $2"
  [ "$out" = "$(printf "$3")" ] || fail "for input: $2 it wrote: $out"
}

expects 0 'exp two-step 0x3f800000\n' '0x402df854 2.7182817'
expects 0 'exp fused 1.5' '0x408f69ff 4.481689'
expects 0 '' ''
expects 0 'exp2 two-step -150\r\n' '0x00000000 0.0'
expects 0 'expm1 fused -0\n' '0x80000000 -0.0'
expects 0 'exp two-step 0x42b17218\nexp two-step 0xc2cff1b4\n' '0x7f800000 inf\n0x00000001 1e-45'
expects 1 'exp two-step 1\nfoo fused 1\nexp fused 1\n' '0x402df854 2.7182817\nerror: line 2: no curve `foo`: exp, exp2, exp10 or expm1\n0x402df854 2.7182817'
expects 1 'exp quick 1\n' 'error: line 1: no arithmetic `quick`: two-step or fused'
expects 1 'exp two-step 0x123456789\n' 'error: line 1: no number `0x123456789`: a pattern of up to eight hexadecimal digits after 0x, or a decimal number'
expects 1 'exp two-step 0x+1\n' 'error: line 1: no number `0x+1`: a pattern of up to eight hexadecimal digits after 0x, or a decimal number'
expects 1 '\n' 'error: line 1: 0 words: a line has three, CURVE ARITHMETIC X'
expects 1 'exp two-step 1 2\n' 'error: line 1: 4 words: a line has three, CURVE ARITHMETIC X'
expects 1 'exp two-step \377\n' 'error: line 1: not text: a line is CURVE ARITHMETIC X'

"$curve" --help </dev/null | grep -q 'CURVE ARITHMETIC X' || fail 'no --help'

# A long input, answered line by line.
lines=$(seq 20000 | sed 's/.*/exp2 fused 0.5/' | "$curve" | sort | uniq -c | tr -s ' ')
[ "$lines" = ' 20000 0x3fb504f3 1.4142135' ] || fail "a long input gave: $lines"
