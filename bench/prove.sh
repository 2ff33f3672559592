#!/usr/bin/env bash
# Prints how long a run takes with its proof, how large the proof is, and how long `verify` takes for it. Not part of the gate.
set -eu
top=$(cd "$(dirname "$0")/.." && pwd)
work=$(mktemp -d)
trap 'rm -rf "$work"' EXIT
rule() { echo "  axiom{} \\rewrites{S{}}(\\and{S{}}($1{}(),\\top{S{}}()),\\and{S{}}($2{}(),\\top{S{}}())) []"; }
{
    echo "[] module CYCLE"
    echo "  sort S{} []"
    for symbol in a b; do echo "  symbol $symbol{}() : S{} [constructor{}()]"; done
    rule a b
    rule b a
    echo "endmodule []"
} > "$work/cycle.kore"
echo "a{}()" > "$work/cycle.term"
# A rule with three variables, on a configuration of ten nodes.
cat > "$work/turn.kore" << 'END'
[] module TURN
  sort S{} []
  sort E{} []
  symbol p{}() : E{} [constructor{}()]
  symbol q{}() : E{} [constructor{}()]
  symbol n{}(E{},E{}) : E{} [constructor{}()]
  symbol t{}(E{},E{},E{}) : S{} [constructor{}()]
  axiom{} \rewrites{S{}}(\and{S{}}(t{}(X:E{},Y:E{},Z:E{}),\top{S{}}()),\and{S{}}(t{}(Y:E{},Z:E{},X:E{}),\top{S{}}())) []
endmodule []
END
echo "t{}(n{}(p{}(),q{}()),n{}(q{}(),p{}()),n{}(p{}(),p{}()))" > "$work/turn.term"
# A rule with a condition, a test and an addition of whole numbers.
cat > "$work/count.kore" << 'END'
[] module COUNT
  hooked-sort SortInt{} [hook{}("INT.Int")]
  hooked-sort SortBool{} [hook{}("BOOL.Bool")]
  sort T{} []
  hooked-symbol add{}(SortInt{},SortInt{}) : SortInt{} [function{}(),hook{}("INT.add")]
  hooked-symbol lt{}(SortInt{},SortInt{}) : SortBool{} [function{}(),hook{}("INT.lt")]
  symbol t{}(SortInt{}) : T{} [constructor{}()]
  axiom{} \rewrites{T{}}(\and{T{}}(t{}(N:SortInt{}),\equals{SortBool{},T{}}(lt{}(N:SortInt{},\dv{SortInt{}}("1000000")),\dv{SortBool{}}("true"))),\and{T{}}(t{}(add{}(N:SortInt{},\dv{SortInt{}}("1"))),\top{T{}}())) []
endmodule []
END
echo 't{}(\dv{SortInt{}}("0"))' > "$work/count.term"
# Rules under which two injections meet in either side, on a configuration with a list of numbers that stays the same. They
# meet right below the root, and below five symbols. The third definition is the same without meeting injections.
subsort() {
    echo "  axiom{R} \\exists{R}(V:$2{},\\equals{$2{},R}(V:$2{},inj{$1{},$2{}}(W:$1{}))) [subsort{$1{},$2{}}()]"
}
turning() {
    echo "  axiom{} \\rewrites{T{}}(\\and{T{}}(t{}($1{}(),$3),\\top{T{}}()),\\and{T{}}(t{}($2{}(),$3),\\top{T{}}())) []"
}
below() { echo "w{}(w{}(w{}(w{}(w{}($1)))))"; }
lists() {
    echo '[] module LISTS'
    echo '  hooked-sort SortInt{} [hook{}("INT.Int")]'
    for sort in Exp Item List State W T; do echo "  sort $sort{} []"; done
    echo '  symbol inj{From,To}(From) : To [sortInjection{}()]'
    subsort SortInt Exp
    subsort Exp Item
    echo '  symbol nil{}() : List{} [constructor{}()]'
    echo '  symbol cons{}(Item{},List{}) : List{} [constructor{}()]'
    echo '  symbol ping{}() : State{} [constructor{}()]'
    echo '  symbol pong{}() : State{} [constructor{}()]'
    echo '  symbol e{}(Item{},List{}) : W{} [constructor{}()]'
    echo '  symbol w{}(W{}) : W{} [constructor{}()]'
    echo '  symbol t{}(State{},W{}) : T{} [constructor{}()]'
    turning ping pong "$1"
    turning pong ping "$1"
    echo 'endmodule []'
}
number() { echo "inj{SortInt{},Item{}}(\\dv{SortInt{}}(\"$1\"))"; }
numbers() {
    local list='nil{}()'
    for ((i = 0; i < $1; i++)); do list="cons{}($(number $((i % 10))),$list)"; done
    echo "$list"
}
lists 'e{}(inj{Exp{},Item{}}(X:Exp{}),L:List{})' > "$work/meeting.kore"
lists "$(below 'e{}(inj{Exp{},Item{}}(X:Exp{}),L:List{})')" > "$work/below.kore"
lists 'e{}(K:Item{},L:List{})' > "$work/plain.kore"
seconds() { local TIMEFORMAT=%U; { time "$@" > /dev/null || true; } 2>&1; }
# Runs n steps by a definition from the term of the same name, with their proof. The time is in `run`, the size in `bytes`.
proved() {
    run=$(seconds "$top/kore_prove" run "$work/$1.kore" "$work/$1.term" --limit "$2" --proof "$work/proof.mm")
    bytes=$(wc -c < "$work/proof.mm")
}
checked() { check=$(seconds "$top/kore_prove" verify "$work/proof.mm"); }
"$top/kore_prove" verify "$top/crates/print_header/stdout" > /dev/null
for name in cycle turn count; do
    for steps in 1000 10000 100000; do
        proved "$name" "$steps"
        checked
        echo "$name, $steps steps: $run s with the proof, $bytes bytes ($((bytes / steps)) a step), verified in $check s"
    done
done
for steps in 100 1000; do
    run=$(seconds "$top/kore_prove" drill "$steps" "$work/proof.mm")
    bytes=$(wc -c < "$work/proof.mm")
    checked
    echo "drill $steps: $run s with the proof, $bytes bytes ($((bytes / steps)) a step), verified in $check s"
done
for length in 10 100 400; do
    part="e{}($(number 5),$(numbers "$length"))"
    echo "t{}(ping{}(),$part)" | tee "$work/plain.term" > "$work/meeting.term"
    echo "t{}(ping{}(),$(below "$part"))" > "$work/below.term"
    for name in plain meeting below; do
        proved "$name" 2
        first=$bytes
        proved "$name" 12
        checked
        echo "$name, $length numbers: $(((bytes - first) / 10)) bytes a step, 12 steps in $run s, verified in $check s"
    done
done
