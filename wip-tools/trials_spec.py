PATH="mathlib.Core.Path.{_≡_, refl, sym, _∙_, ap}"
PROOFS={
"run":dict(head="`trials::run` is safe: what a turn wrote lies within its buffer.",uses=[PATH,"Prim.Native.Nat.{_≤_}","native.Mathlib.Omega.{arith}","lib.ListN.{length}","lib.Seq.{length-take-le}"],
 before='''fits : (c : tie.After-take-turn) → c .take-turn .result .written ≤ length (c .take-turn .last .1 .1 .1 .0)
fits c = omega (arith, c .take-turn .ensures .1 .1 .1 .1 .1 .1 .1, c .take-turn .kept .1 .1 .1 .0)
''',answers={"slice-reshare-prefix-write-all":"fits (c @@After-take-turn)","slice-aggregate-write-all":"sym (length-take-le _ _ (fits (c @@After-take-turn)))"}),
"records":dict(head="`trials::records` is safe, and ends: each record takes some bytes.",uses=[PATH,"Prim.Native.Nat.{_-_, _≤_}","native.Mathlib.Omega.{arith}","lib.ListN.{length, take, drop}","denote.Ref.{now}"],
 inv=("c₀ input out₀ at₀ c out at","(at ≤ length input) × (length out ≡ length out₀)","length input - at"),
 answers={"loop-holds":"(omega arith, refl)","add-loop":"omega arith","sub-head":"omega arith","part-head-start":"omega arith","part-head-end":"omega arith","add-if1":"omega arith","same-length":"c @loop .inv .1","returns":"tt","add-play":"omega arith","sub-play":"omega arith","part-play-start":"omega arith","part-play-end":"omega arith","add-at":"omega arith","add-at-2":"omega arith","loop-less":"omega arith","loop-again":"(omega arith, c @play .kept .1 .1 .1 .0 ∙ c @loop .inv .1)","same-length-2":"c @loop .inv .1","returns-2":"tt"}),
}
