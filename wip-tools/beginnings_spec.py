PATH="mathlib.Core.Path.{_≡_, refl, sym, ap, _∙_}"
TF="Rattle·cells.specs.Layout.{tableFrom}"
PROOFS={
"are_bad_sites":dict(uses=[PATH,"Rattle·sites.specs.Sites.{outsideb}",TF,"Rattle·beginnings·proofs.proofs.BeginLaws.{bad-of-empty, bad-of-outside}"],answers={
 "returns":"let a = c @args in sym (bad-of-empty (tableFrom (a .c .now)) (a .x) (c .if1 .taken))",
 "returns-2":"let a = c @args in c .goes-outside .ensures ∙ ap (outsideb (a .x)) (c @sites .ensures) ∙ sym (bad-of-outside (tableFrom (a .c .now)) (a .x) (c @@Else1 .if1 .left) (search needs))"}),
"based":dict(head="`beginnings::based` meets its contract: what the sites that are left would make of the parts so far is what all sites make of none.",
 uses=[PATH,"Prim.Native.Nat.{_<_}","native.Mathlib.Omega.{arith}","lib.ListN.{length, replicate, length-set}","Rattle·sites.specs.Sites.{sitesOf, Turn}","Rattle·sites.proofs.ByteLaws.{turn, sites-zero}","Rattle·method.specs.Records.{noPart}","Rattle·method.specs.Effects.{based}",TF],
 inv=("c x parts₀ left₀ parts left","(left < 256) × (based (tableFrom c .high) (sitesOf x) (replicate 8 noPart) ≡ based (tableFrom c .high) (sitesOf left) parts) × (length parts ≡ 8)","left"),
 before='''at : (c : tie.In-loop Inv-loop μ-loop) → Turn (c .before .loop .left)
at c = turn (c .before .loop .left) (c .loop-test .taken) (c .before .loop .inv .0)
''',
 answers={"loop-holds":"(search needs, refl, refl)","cast-s":"omega (arith, at c .site)","mul-parts":"omega (arith, at (c @@In-loop) .site)","array-set-from-parts":"at (c @@In-loop) .site","sub-left":"omega (arith, at (c @@In-loop) .falls)","loop-less":"at (c @@In-loop) .falls",
 "loop-again":("based","let l = c @loop in (omega (arith, at (c @@In-loop) .falls), l .inv .1 ∙ rw (at (c @@In-loop) .step, c @high-at .ensures), simp length-set (l .inv .2))"),
 "returns":("based","sym (c @loop .inv .1 ∙ rw (c .loop-test .left, sites-zero))")}),
"begin":dict(head="`beginnings::begin` meets its contract: each way out is one of the laws on begin.",
 uses=[PATH,"mathlib.Core.Bool.{false}","mathlib.Core.List.{List}","Prim.Native.Nat.{ℕ, _+_}","native.Mathlib.Omega.{arith}","Rattle·method.specs.declared.Answer.{Answer}","Rattle·method.specs.declared.Number.{Number}","Rattle·method.specs.declared.Table.{Table}","Rattle·method.specs.Records.{number}","Rattle·method.specs.Slots.{freeSlot}","Rattle·method.specs.Conditions.{badSites}","Rattle·method.specs.Effects.{effect}",TF,"Rattle·cells.specs.After.{cellsEffect}","Rattle·cells.proofs.TableLaws.{slots-of-cells}","Rattle·cells.proofs.AfterLaws.{stopped-cells, done-cells}","Rattle·beginnings·proofs.proofs.BeginLaws.{begin-closed, begin-badly, begin-used-up, begin-full, begin-on, begun-cells}"],
 before='''-- past the sites
module _ (c : tie.Else2) where
  abbrev cells : List ℕ
  cells = c @args .c .now

  abbrev t : Table
  t = tableFrom cells

  abbrev x : ℕ
  x = c @args .x

  opened : t .sites ≡ 0 → ⊥
  opened q = c @@Else1 .if1 .left (c @sites .ensures ∙ q)

  good : badSites t x ≡ false
  good = sym (c @are-bad-sites .ensures) ∙ c .if2 .left

-- past the last number
more : (c : tie.Else3) → t (c @@Else2) .last .0 ≡ 4294967295 → ⊥
more c q = c .if3 .left (ap (λ (n : Number). n .0) (c @last .ensures) ∙ q)

-- past the slot
some : (c : tie.Else4) → freeSlot (t (c @@Else2)) ≡ 32 → ⊥
some c q = c .if4 .left (c @lowest-free .ensures ∙ q)
''',
 answers={
 "returns":"let a = c @args in stopped-cells _ _ 1 (begin-closed (tableFrom (a .c .now)) (a .x) (sym (c @sites .ensures) ∙ c .if1 .taken))",
 "returns-2":"let a = c @args in stopped-cells _ _ 3 (begin-badly (tableFrom (a .c .now)) (a .x) (λ q. c @@Else1 .if1 .left (c @sites .ensures ∙ q)) (sym (c @are-bad-sites .ensures) ∙ c .if2 .taken))",
 "returns-3":"let e = c @@Else2 in stopped-cells _ _ 8 (begin-used-up (t e) (x e) (opened e) (good e) (ap (λ (n : Number). n .0) (sym (c @last .ensures)) ∙ c .if3 .taken))",
 "returns-4":"let e = c @@Else2 in stopped-cells _ _ 7 (begin-full (t e) (x e) (opened e) (good e) (more (c @@Else3)) (slots-of-cells (cells e)) (sym (c @lowest-free .ensures) ∙ c .if4 .taken))",
 "returns-5":("effect cellsEffect","let e = c @@Else2 in let on = begin-on (t e) (x e) (opened e) (good e) (more (c @@Else3)) (slots-of-cells (cells e)) (some (c @@Else4)) in done-cells _ _ on _ (ap (λ (n : Number). Answer.Begun (number (n .0 + 1))) (c @last .ensures)) _ (c @put-row .ensures ∙ begun-cells (cells e) (x e) _ _ _ _ (c @last .ensures) (c @put-last .ensures) (c @lowest-free .ensures) (c @based .ensures))")}),
}
