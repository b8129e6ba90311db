PATH="mathlib.Core.Path.{_≡_, refl, sym, ap, _∙_}"
T="borrow.Author.Tests.{eq-eqb, ne-eqb}"
ROW="Rattle·method.specs.declared.Row.{Row}"
TF="Rattle·cells.specs.Layout.{tableFrom}"
W="Rattle·slots·specs.specs.Wanted.{suiting}"
SC="Rattle·cells.proofs.TableLaws.{slots-of-cells}"
PROOFS={
"has_number":dict(uses=["mathlib.Core.Path.{_≡_, refl, sym, ap, _∙_}","mathlib.Core.Bool.{Bool, true, false, not, _&&_}","borrow.Author.Tests.{eq-eqb, ne-eqb}","Rattle·method.specs.declared.Number.{Number}","Rattle·method.specs.Records.{inUse, rowAt}",TF],
 before="""with-false : (b : Bool) → b && false ≡ false
with-false true = refl
with-false false = refl

with-true : (b : Bool) → b && true ≡ b
with-true true = refl
with-true false = refl
""",answers={
 "returns":"let e = ap (λ (m : Number). m .0) (sym (c @number-at .ensures)) in sym (rw (e, ne-eqb (c @number-at .result .0) (c @args .n .0) (c .if1 .taken)) (with-false (inUse (rowAt (tableFrom (c @args .c .now)) (c @args .i)))))",
 "returns-2":"let e = ap (λ (m : Number). m .0) (sym (c @number-at .ensures)) in sym (rw (e ∙ c @@Else1 .if1 .left, eq-eqb (c @args .n .0) (c @args .n .0) refl) (with-true _ ∙ sym (ap not (c @is-free .ensures))))"}),
"suits":dict(uses=[PATH],answers={
 "returns":"c @is-free .ensures ∙ sym (rw (c @enum-told .given .1))",
 "returns-2":"c @has-number .ensures ∙ sym (rw (c @w .given .1))",
 "returns-3":"c @is-rival .ensures ∙ sym (rw (c @w2 .given .1))",
 "returns-4":"c @points-to .ensures ∙ sym (rw (c @w3 .given .1))",
 "returns-5":"c @is-older .ensures ∙ sym (rw (c @w4 .given .1))"}),
"first":dict(head="`slots::first` meets its contract: what is found from the front is what is found from i on.",
 uses=[PATH,"Prim.Native.Nat.{_≤_, _-_, _+_}","native.Mathlib.Nat.{zero-add}","native.Mathlib.Omega.{arith}","lib.ListN.{length, drop}","Rattle·method.specs.Records.{pastEnd}","Rattle·method.specs.Slots.{firstAt}",W,"Rattle·method.proofs.SearchLaws.{first-hit, first-skip, first-end}",TF,SC],
 inv=("c w i₀ i","(i ≤ 32) × (firstAt (suiting (tableFrom c) w) (tableFrom c .rows) ≡ i + firstAt (suiting (tableFrom c) w) (drop i (tableFrom c .rows)))","32 - i"),
 answers={"loop-holds":"(search needs, rw zero-add)",
 "returns":"let l = c @@At-loop in let a = c @args in sym (l .loop .inv .1 ∙ first-hit (suiting (tableFrom (a .c .now)) (a .w)) (tableFrom (a .c .now) .rows) pastEnd (l .loop .i) (omega (arith, slots-of-cells (a .c .now))) (sym (c @suits .ensures) ∙ c .if1 .taken))",
 "loop-again":"let l = c @@At-loop in let a = c @args in (search needs, l .loop .inv .1 ∙ first-skip (suiting (tableFrom (a .c .now)) (a .w)) (tableFrom (a .c .now) .rows) pastEnd (l .loop .i) (omega (arith, slots-of-cells (a .c .now))) (sym (c @suits .ensures) ∙ c .if1 .left))",
 "returns-2":"let l = c @@At-loop in let a = c @args in omega (arith, l .loop .inv .1, first-end (suiting (tableFrom (a .c .now)) (a .w)) (tableFrom (a .c .now) .rows) pastEnd (l .loop .i) (omega (arith, slots-of-cells (a .c .now))))"}),
"has":dict(uses=[PATH,W,TF,SC,"Rattle·slots·proofs.proofs.FoundLaws.{found}"],answers={"returns":"let a = c @args in rw (c @first .ensures) (found (suiting (tableFrom (a .c .now)) (a .w)) (tableFrom (a .c .now) .rows) (slots-of-cells (a .c .now)))"}),
"lowest_free":dict(uses=[PATH,"Rattle·method.specs.Slots.{freeSlot}"],answers={"returns":("freeSlot","c @first .ensures")}),
"enter":dict(uses=[PATH,"mathlib.Core.Bool.{cond}","borrow.Author.Tests.{eq-eqb, ne-eqb}","Rattle·method.specs.Slots.{slotOf}","Rattle·slots·specs.specs.Gate.{gateOf}",TF,SC,"Rattle·method.proofs.CheckLaws.{unknown-of-end, known-of-slot}"],
 before="""found : (c : tie.After-first) → c .first .result ≡ slotOf (tableFrom (c @args .c .now)) (c @args .n .0)
unfolding slotOf
found c = c .first .ensures
""",answers={
 "returns":("gateOf","sym (rw (eq-eqb _ _ (sym (c @sites .ensures) ∙ c .if1 .taken)))"),
 "returns-2":("gateOf","let f = c @@After-first in let a = c @args in sym (rw (ne-eqb _ _ (λ e. c @@Else1 .if1 .left (c @sites .ensures ∙ e)), unknown-of-end (tableFrom (a .c .now)) (slots-of-cells (a .c .now)) (a .n .0) (sym (found f) ∙ c .if2 .taken)))"),
 "returns-3":("gateOf","let f = c @@After-first in let a = c @args in sym (rw (ne-eqb _ _ (λ e. c @@Else1 .if1 .left (c @sites .ensures ∙ e)), known-of-slot (tableFrom (a .c .now)) (slots-of-cells (a .c .now)) (a .n .0) (λ e. c .if2 .left (found f ∙ e)) .0, found f))")}),
"sites_used":dict(uses=[PATH,"Rattle·sites.specs.Sites.{sitesUsed}",TF,"Prim.Native.Nat.{ℕ}","Rattle·slots·proofs.proofs.UsedLaws.{used-refused, used-at}"],answers={
 "returns":"used-refused _ _ _ (sym (c @enter .ensures) ∙ c @enum-told .given .1)",
 "returns-2":"c @used .ensures ∙ ap sitesUsed (c @sites-at .ensures) ∙ used-at _ _ _ (sym (c @enter .ensures) ∙ c @slot .given .1)"}),
}
