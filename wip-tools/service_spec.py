PATH="mathlib.Core.Path.{_≡_, refl, sym, _∙_, ap}"
PROOFS={
"settle":dict(head="`service::settle` meets its contract, and ends: a turn that goes on used bytes.",uses=[PATH,"mathlib.Core.List.{List}","Prim.Native.Nat.{ℕ, _+_, _-_, _≤_}","native.Mathlib.Omega.{arith}","lib.ListN.{length, take}","lib.Seq.{length-take-le}","denote.Ref.{now}"],
 inv=("c₀ waiting last input₀ output₀ left₀ c input output left","(length input ≡ length input₀) × (length output ≡ length output₀) × (left ≤ length input₀)","left"),
 before='''-- what a turn used and wrote lies within what it was given
module _ (c : tie.After-take-turn Inv-loop μ-loop) where
  abbrev loop : tie.At-loop Inv-loop μ-loop
  loop = c @@At-loop

  abbrev given : List ℕ
  given = take (loop .loop .left) (loop .loop .input)

  size : length given ≡ loop .loop .left
  size = length-take-le (loop .loop .left) (loop .loop .input) (omega (arith, loop .loop .inv .0, loop .loop .inv .2))

  used-fits : c .take-turn .result .used ≤ loop .loop .left
  used-fits = omega (arith, c .take-turn .ensures .1 .1 .1 .1 .1 .1 .0, size)

  same : length (c .take-turn .last .1 .1 .1 .0) ≡ length (loop .loop .output)
  same = c .take-turn .kept .1 .1 .1 .0

  written-fits : c .take-turn .result .written ≤ length (c .take-turn .last .1 .1 .1 .0)
  written-fits = omega (arith, c .take-turn .ensures .1 .1 .1 .1 .1 .1 .1, same)
''',
 answers={"loop-holds":"(refl, refl, c @pre)",
 "slice-reshare-prefix-take-turn":"omega (arith, c @loop .inv .0, c @loop .inv .2)",
 "slice-aggregate-take-turn":"let l = c @@At-loop in sym (length-take-le (l .loop .left) (l .loop .input) (omega (arith, l .loop .inv .0, l .loop .inv .2)))",
 "take-turn-requires":"tt","slice-reshare-prefix-write-all":"written-fits (c @@After-take-turn)","slice-aggregate-write-all":"sym (length-take-le _ _ (written-fits (c @@After-take-turn)))","write-all-requires":"tt",
 "move-down-requires":"let t = c @@After-take-turn in (used-fits t, omega (arith, loop t .loop .inv .0, loop t .loop .inv .2))",
 "sub-left":"used-fits (c @@After-take-turn)",
 "same-length":"c @move-down .kept .0 ∙ c @loop .inv .0","same-length-2":"same (c @@After-take-turn) ∙ c @loop .inv .1","returns":"omega (arith, c @loop .inv .2)",
 "same-length-3":"c @move-down .kept .0 ∙ c @loop .inv .0","same-length-4":"same (c @@After-take-turn) ∙ c @loop .inv .1","returns-2":"omega (arith, c @loop .inv .2)",
 "loop-less":"omega (arith, c .if2 .left, used-fits (c @@After-take-turn))",
 "loop-again":"let l = c @@At-loop in (c @move-down .kept .0 ∙ l .loop .inv .0, same (c @@After-take-turn) ∙ l .loop .inv .1, omega (arith, l .loop .inv .2))"}),
"main":dict(head="`service::main` is safe and ends: it counts its reads down.",uses=[PATH,"Prim.Native.Nat.{_≤_}","native.Mathlib.Omega.{arith}","lib.ListN.{length}"],
 inv=("table₀ input₀ output₀ state₀ reads₀ table input output state reads","(length input ≡ 16384) × (length output ≡ 16384) × (state .waiting ≤ 16384)","reads"),
 answers={"loop-holds":"(search needs, search needs, omega arith)",
 "slice-aggregate-round":"sym (c @loop .inv .0)","slice-aggregate-round-2":"sym (c @loop .inv .1)","round-requires":"let i = c @loop .inv in omega (arith, i .0, i .2)","sub-reads":"omega arith","loop-less":"omega arith",
 "loop-again":"let r = c @round in let i = c @loop .inv in (r .kept .1 .1 .0 ∙ i .0, r .kept .1 .1 .1 .0 ∙ i .1, omega (arith, r .ensures, i .0))",
 "returns":"tt","returns-2":"tt"}),
}
