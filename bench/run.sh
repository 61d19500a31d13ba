#!/usr/bin/env bash
# Times `ets_tool run`, as `rt run` builds it, over inputs that are made here: objects {N,a} in growing numbers, without and
# with a condition, a term 255 deep, a list of a million integers, a map of 65,535 pairs in falling order, specifications of up to
# 8,000 nodes and 256 variables, and a long list that a condition looks at. Time and memory are to be linear. Then it times
# `bench`: the largest code verified, with frames at a third of its instructions and at nearly all; and what
# compiling, running and evaluating takes of a short specification over a million pairs, of growing bodies, and of a body that is one
# long list.
# usage: bench/run.sh
set -eu
top=$(cd "$(dirname "$0")/.." && pwd)
program=$top/crates/ets_tool/out/ets_tool
code=$top/crates/bench/out/bench
for built in "$program" "$code"; do
  [ -x "$built" ] || { echo "bench/run.sh: no program at $built: build it by 'rt run </dev/null' in its crate" >&2; exit 2; }
done
work=$(mktemp -d)
trap 'rm -rf "$work"' EXIT

objects() {
  awk -v n="$1" 'BEGIN { print "[{{'\''$1'\'','\''$2'\''},[],['\''$1'\'']}]."; for (i = 1; i <= n; i++) print "{" i ",a}." }'
}
deep() {
  awk 'BEGIN { print "[{'\''$1'\'',[],['\''$1'\'']}]."; s = ""; e = ""; for (i = 1; i <= 255; i++) { s = s "["; e = e "]" } print s e "." }'
}
wide() {
  awk -v n="$1" 'BEGIN { print "[{'\''$1'\'',[],['\''$1'\'']}]."; printf "[0"; for (i = 1; i < n; i++) printf ",%d", i; print "]." }'
}
map() {
  awk -v n="$1" 'BEGIN { print "[{'\''$1'\'',[],['\''$1'\'']}]."; printf "#{%d=>0", n; for (i = n - 1; i > 0; i--) printf ",%d=>0", i; print "}." }'
}
conditions() {
  awk -v n="$1" 'BEGIN { print "[{{'\''$1'\'','\''$2'\''},[{'\''=:='\'',{'\''rem'\'','\''$1'\'',2},0}],[{'\''+'\'','\''$1'\'',1}]}]."; for (i = 1; i <= n; i++) print "{" i ",a}." }'
}
nodes() {
  awk -v n="$1" 'BEGIN { printf "[{{'\''$1'\''},[],[{{'\''$1'\''"; for (i = 1; i < n; i++) printf ",{'\''+'\'','\''$1'\'',%d}", i; print "}}]}]."; for (i = 1; i <= 10; i++) print "{" i "}." }'
}
variables() {
  awk -v n="$1" 'BEGIN { printf "[{{'\''$0'\''"; for (i = 1; i < n; i++) printf ",'\''$%d'\''", i; print "},[],['\''$$'\'']}]."; for (j = 0; j < 1000; j++) { printf "{0"; for (i = 1; i < n; i++) printf ",%d", i; print "}." } }'
}
looked_at() {
  awk -v n="$1" 'BEGIN { print "[{{'\''$1'\''},[{is_list,'\''$1'\''},{'\''=:='\'',{hd,{tl,'\''$1'\''}},1}],[{length,'\''$1'\''}]}]."; printf "{[0"; for (i = 1; i < n; i++) printf ",%d", i; print "]}." }'
}
measure_verifier() {
  name=$1 word=$2
  { command time -f '%e %M' "$code" files "$word" > "$work/out"; } 2> "$work/time"
  printf '%-28s %8s counted  %s s, KB at most\n' "$name" "$(cat "$work/out")" "$(tail -n 1 "$work/time")"
}
measure() {
  name=$1 file=$2
  { command time -f '%e %M' "$program" run < "$file" > "$work/out"; } 2> "$work/time" || true
  printf '%-28s %8s bytes in  %8s bytes out  %s s, KB at most\n' "$name" "$(stat -c %s "$file")" "$(stat -c %s "$work/out")" "$(tail -n 1 "$work/time")"
}
for n in 1000 10000 100000 1000000; do objects "$n" > "$work/in"; measure "$n objects {N,a}" "$work/in"; done
deep > "$work/in"; measure "a list 255 deep" "$work/in"
for n in 10000 100000 1000000; do wide "$n" > "$work/in"; measure "a list of $n integers" "$work/in"; done
for n in 6553 65535; do map "$n" > "$work/in"; measure "a map of $n pairs" "$work/in"; done
for n in 10000 100000 1000000; do conditions "$n" > "$work/in"; measure "$n objects, a condition" "$work/in"; done
for n in 665 1330 2660; do nodes "$n" > "$work/in"; measure "$((n * 3)) nodes in a body" "$work/in"; done
for n in 64 128 256; do variables "$n" > "$work/in"; measure "$n variables, 1,000 objects" "$work/in"; done
for n in 10000 100000 1000000; do looked_at "$n" > "$work/in"; measure "a list of $n in a condition" "$work/in"; done
measure_verifier "verify, a third framed" third
measure_verifier "verify, nearly all framed" each
{ echo "[{{'_','\$1'},[],['\$1']}]."; yes '{1,true}.' | head -n 1000000; } > "$work/in"
"$code" machine objects < "$work/in"
for n in 665 1330 2660; do nodes "$n" > "$work/in"; echo "$((n * 3)) nodes in a body"; "$code" machine objects < "$work/in"; done
{ awk 'BEGIN { printf "[{{'\''$1'\''},[],[['\''$1'\''"; for (i = 1; i < 7990; i++) printf ",'\''$1'\''"; print "]]}]." }'; yes '{1}.' | head -n 10000; } > "$work/in"
echo "a list of 7,990 elements as the body"
"$code" machine objects < "$work/in"
