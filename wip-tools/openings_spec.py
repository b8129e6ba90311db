PATH="mathlib.Core.Path.{_≡_, refl, sym, ap, _∙_}"
TF="Rattle·cells.specs.Layout.{tableFrom}"
PROOFS={
"lay":dict(head="`openings::lay` meets its contract: what the floors from i on would make of the cells so far is what all of them make of the first.",
 uses=[PATH,"Prim.Native.Nat.{_≤_, _-_, _+_}","native.Mathlib.Omega.{arith}","lib.ListN.{length, drop}","denote.Ref.{now}","Rattle·cells.specs.Puts.{putFloors}","Rattle·openings·proofs.proofs.OpenLaws.{floors-step, floors-end}"],
 inv=("c₀ fs i₀ c i","(i ≤ length fs) × (putFloors c₀ 0 fs ≡ putFloors c i (drop i fs))","length fs - i"),
 answers={"loop-holds":"(search needs, refl)",
 "loop-again":"let l = c @loop in let fs = c @args .floors .now in (search needs, l .inv .1 ∙ floors-step (l .c) fs (l .i) (c @loop-test .taken) ∙ ap (λ d. putFloors d (l .i + 1) (drop (l .i + 1) fs)) (sym (c @put-high .ensures)))",
 "returns":"let l = c @loop in sym (l .inv .1 ∙ floors-end (l .c) (c @args .floors .now) (l .i) (c @loop-test .left))"}),
"open_with":dict(uses=[PATH,"mathlib.Core.List.{List}","Prim.Native.Nat.{ℕ, _-_, _≤_, _<_}","native.Mathlib.Omega.{arith}","denote.Ref.{now}","lib.ListN.{length}","Rattle·method.specs.declared.Answer.{Answer}","Rattle·method.specs.Records.{number}","Rattle·method.specs.Effects.{effect}",TF,"Rattle·cells.specs.Puts.{putFloors, putLast, putSites}","Rattle·cells.specs.After.{cellsEffect}","Rattle·cells.proofs.AfterLaws.{stopped-cells, done-cells}","Rattle·openings·proofs.proofs.OpenLaws.{good-opening, open-twice, open-bad, open-good}"],
 before='''-- past the checks
module _ (c : tie.Else2) where
  good : (length (now (c @args .floors)) ≤ 8) × (0 < c @args .first .0)
  good = good-opening (c @args .first .0) (now (c @args .floors)) (sym (c @is-bad-opening .ensures) ∙ c .if2 .left)

  small : length (now (c @args .floors)) < 256
  small = omega (arith, good .0)
''',
 answers={
 "returns":"let a = c @args in stopped-cells _ _ 4 (open-twice (tableFrom (a .c .now)) (a .first .0) (now (a .floors)) (λ q. c .if1 .taken (c @sites .ensures ∙ q)))",
 "returns-2":"let a = c @args in stopped-cells _ _ 1 (open-bad (tableFrom (a .c .now)) (a .first .0) (now (a .floors)) (sym (c @sites .ensures) ∙ c @@Else1 .if1 .left) (sym (c @is-bad-opening .ensures) ∙ c .if2 .taken))",
 "cast-put-sites":"search (needs, small (c @@Else2))","sub-t13":"omega (arith, good (c @@Else2) .1)",
 "returns-3":("effect cellsEffect","let a = c @args in let on = open-good (tableFrom (a .c .now)) (a .first .0) (now (a .floors)) (sym (c @sites .ensures) ∙ c @@Else1 .if1 .left) (sym (c @is-bad-opening .ensures) ∙ c @@Else2 .if2 .left) in done-cells _ _ on _ refl _ (c @lay .ensures ∙ rw (c @put-last .ensures, c @put-sites .ensures, c @clear .ensures))")}),
}
