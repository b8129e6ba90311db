PATH="mathlib.Core.Path.{_≡_, refl, sym, ap, _∙_}"
TF="Rattle·cells.specs.Layout.{tableFrom}"
G="(flat h) (al h) (c @has-cycle .result) (c @has-cycle .ensures)"
PROOFS={"decide":dict(head="`decisions::decide` meets its contract: each way out is one of the laws on decide.",
 uses=[PATH,"mathlib.Core.Bool.{false}","mathlib.Core.List.{List}","Prim.Native.Nat.{ℕ}","borrow.Author.Tests.{not-true, not-false}","Rattle·sites.specs.Sites.{sitesOf}","Rattle·method.specs.declared.Number.{Number}","Rattle·method.specs.Records.{rowAt}","Rattle·method.specs.Conditions.{notPrepared}","Rattle·slots.specs.declared.Gate.{Gate}","Rattle·slots.specs.Gate.{gateOf}",TF,"Rattle·cells.specs.Puts.{putCommitted}","Rattle·cells.specs.After.{cellsRaised}","Rattle·cells.proofs.AfterLaws.{stopped-cells, done-cells}","Rattle·decisions·proofs.proofs.DecideLaws.{decide-unknown, decide-early, decide-on, decide-cycle, decide-commit}"],
 before='''-- past the gate
module _ (c : tie.After-known-told2) where
  abbrev cells : List ℕ
  cells = c @args .c .now

  abbrev n : ℕ
  n = c @args .n .0

  abbrev slot : ℕ
  slot = c @slot .given .0 .0

  at : gateOf (tableFrom cells) n ≡ Gate.At slot
  at = sym (c @enter .ensures) ∙ c @slot .given .1

-- past being prepared
prepared : (c : tie.Else1) → let g = c @@After-known-told2 in notPrepared (rowAt (tableFrom (cells g)) (slot g)) ≡ false
prepared c = not-true _ (sym (c @is-prepared .ensures) ∙ not-false _ (c .if1 .left))
''',
 answers={"enum-known-k":"c .match .keys1","enum-known-slot":"c .match .keys2",
 "returns":"let g = c @@After-known-told2 in stopped-cells _ _ 4 (decide-early (cells g) (n g) (slot g) (at g) (not-false _ (sym (c @is-prepared .ensures) ∙ not-true _ (c .if1 .taken))))",
 "returns-2":"let g = c @@After-known-told2 in let p = prepared (c @@Else1) in let d = decide-cycle (cells g) (n g) (slot g) (at g) p (c @tickets .result) (c @tickets .ensures) (c @has-cycle .result) (c @has-cycle .ensures) (c @@Then2 .if2 .taken) in done-cells _ _ (decide-on (cells g) (n g) (slot g) (at g) p) _ (d .0) _ (c @free-slot .ensures ∙ d .1)",
 "returns-3":"stopped-cells _ _ _ (decide-unknown (c @args .c .now) (c @args .n .0) _ (sym (c @enter .ensures) ∙ c @k .given .1))",
 "returns-4":"let g = c @@After-known-told2 in let p = prepared (c @@Else1) in let r = rowAt (tableFrom (cells g)) (slot g) in let d = decide-commit (cells g) (n g) (slot g) (at g) p (c @tickets .result) (c @tickets .ensures) (c @has-cycle .result) (c @has-cycle .ensures) (c @@Else2 .if2 .left) in done-cells _ _ (decide-on (cells g) (n g) (slot g) (at g) p) _ (d .0) _ (c @put-committed .ensures ∙ ap (λ (x : List ℕ). putCommitted x (slot g) (c @last .result)) (c @raise .ensures) ∙ ap (putCommitted (cellsRaised r (sitesOf (r .sites)) (cells g)) (slot g)) (c @last .ensures) ∙ d .1)"})}
