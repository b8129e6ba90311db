PATH="mathlib.Core.Path.{_≡_, refl, sym, ap, _∙_}"
TF="Rattle·cells.specs.Layout.{tableFrom}"
U=[PATH,"mathlib.Core.Bool.{Bool, not, _||_, true, false}","mathlib.Core.List.{List, [], _∷_}","mathlib.Core.Option.{some, none}","Prim.Native.Nat.{ℕ}","Rattle·method.specs.declared.Answer.{Answer}","Rattle·method.specs.declared.Row.{Row}","Rattle·method.specs.declared.Number.{Number}","Rattle·method.specs.declared.Table.{Table}","Rattle·method.specs.Records.{active, committed, rowAt, freeRow}","Rattle·method.specs.Slots.{rowOfNumber}","Rattle·method.specs.Calls.{checks, firstTrue}"]
V=["Rattle·method.specs.Effects.{effect}","Rattle·slots.specs.declared.Gate.{Gate}","Rattle·slots.proofs.GateLaws.{Passed, gate-refused, gate-passed}",TF,"Rattle·cells.specs.Puts.{putRow}","Rattle·cells.specs.After.{cellsEffect}","Rattle·cells.proofs.TableLaws.{slots-of-cells}","Rattle·cells.proofs.AfterLaws.{stopped-cells, done-cells}"]
def before(rest):
    return f'''abbrev rest : Table → ℕ → List (ℕ × Bool)
rest t n = {rest}

-- past the gate
module _ (c : tie.After-known-told2) where
  abbrev cells : List ℕ
  cells = c @args .c .now

  abbrev n : ℕ
  n = c @args .n .0

  passed : Passed (tableFrom cells) n (c @slot .given .0 .0) (rest (tableFrom cells) n)
  passed = gate-passed (tableFrom cells) (slots-of-cells cells) n (c @slot .given .0 .0) (rest (tableFrom cells) n) (sym (c @enter .ensures) ∙ c @slot .given .1)
'''
unknown="let a = c @args in stopped-cells _ _ _ (gate-refused (tableFrom (a .c .now)) (a .n .0) _ (rest (tableFrom (a .c .now)) (a .n .0)) (sym (c @enter .ensures) ∙ c @k .given .1))"
freed="(c @free-slot .ensures ∙ ap (λ (i : ℕ). putRow (cells g) i freeRow) (passed g .slot))"
PROOFS={
"abort":dict(head="`endings::abort` meets its contract: past the gate one check is left.",uses=U+["Rattle·method.specs.Calls.Call.{abort}"]+V,
 before=before("(4, not (active (rowOfNumber t n))) ∷ []")+'''
-- the check behind the gate, as the code makes it
checked : (c : tie.After-is-active) → let g = c @@After-known-told2 in firstTrue (checks (tableFrom (cells g)) (abort (n g))) ≡ firstTrue ((4, not (c .is-active .result)) ∷ [])
unfolding checks
checked c =
    let p = passed (c @@After-known-told2) in
    p .on ∙ rw (sym (p .slot), sym (c @is-active .ensures))
''',answers={"enum-known-k":"c .match .keys1","enum-known-slot":"c .match .keys2",
 "returns":"stopped-cells _ _ 4 (checked (c @@After-is-active) ∙ rw (c .if1 .taken))",
 "returns-2":("checks",unknown),
 "returns-3":("effect cellsEffect","let g = c @@After-known-told2 in done-cells _ _ (checked (c @@After-is-active) ∙ rw (c @@Else1 .if1 .left)) _ refl _ "+freed)}),
"forget":dict(head="`endings::forget` meets its contract: past the gate two checks are left, of which the code makes three.",uses=U+["Rattle·method.specs.Conditions.{hasPred, heldBack, mayNotForget}","Rattle·method.specs.Calls.Call.{forget}","Rattle·slots.proofs.WantedLaws.{pred-wanted, held-wanted}"]+V,
 before=before("(4, not (committed (rowOfNumber t n))) ∷ (9, mayNotForget t (rowOfNumber t n)) ∷ []")+'''
-- the checks behind the gate, as the code makes them
on-kept : (c : tie.After-is-committed) → let g = c @@After-known-told2 in firstTrue (checks (tableFrom (cells g)) (forget (n g))) ≡ firstTrue ((4, not (c .is-committed .result)) ∷ (9, mayNotForget (tableFrom (cells g)) (rowOfNumber (tableFrom (cells g)) (n g))) ∷ [])
unfolding checks
on-kept c = let p = passed (c @@After-known-told2) in p .on ∙ rw (sym (p .slot), sym (c @is-committed .ensures))

on-pred : (c : tie.After-has) → let g = c @@After-known-told2 in hasPred (tableFrom (cells g)) (rowOfNumber (tableFrom (cells g)) (n g)) ≡ c .has .result
on-pred c =
    let g = c @@After-known-told2 in
    ap (λ (i : ℕ). hasPred (tableFrom (cells g)) (rowAt (tableFrom (cells g)) i)) (sym (passed g .slot)) ∙ pred-wanted (tableFrom (cells g)) (c @slot .given .0 .0) ∙ sym (c .has .ensures)

on-held : (c : tie.After-has2) → let g = c @@After-known-told2 in heldBack (tableFrom (cells g)) (rowOfNumber (tableFrom (cells g)) (n g)) ≡ c .has2 .result
on-held c =
    let g = c @@After-known-told2 in
    ap (λ (i : ℕ). heldBack (tableFrom (cells g)) (rowAt (tableFrom (cells g)) i)) (sym (passed g .slot)) ∙ held-wanted (tableFrom (cells g)) (rowAt (tableFrom (cells g)) (c @slot .given .0 .0)) (c @last-at .result) (c @last-at .ensures) ∙ sym (c .has2 .ensures)
''',answers={"enum-known-k":"c .match .keys1","enum-known-slot":"c .match .keys2",
 "returns":"stopped-cells _ _ 4 (on-kept (c @@After-is-committed) ∙ rw (c .if1 .taken))",
 "returns-2":"stopped-cells _ _ 9 (on-kept (c @@After-is-committed) ∙ rw (c @@Else1 .if1 .left, on-pred (c @@After-has) ∙ c .if2 .taken))",
 "returns-3":"stopped-cells _ _ 9 (on-kept (c @@After-is-committed) ∙ rw (c @@Else1 .if1 .left, on-pred (c @@After-has) ∙ c @@Else2 .if2 .left, on-held (c @@After-has2) ∙ c .if3 .taken))",
 "returns-4":("checks",unknown),
 "returns-5":("effect cellsEffect","let g = c @@After-known-told2 in done-cells _ _ (on-kept (c @@After-is-committed) ∙ rw (c @@Else1 .if1 .left, on-pred (c @@After-has) ∙ c @@Else2 .if2 .left, on-held (c @@After-has2) ∙ c @@Else3 .if3 .left)) _ refl _ "+freed)}),
}
