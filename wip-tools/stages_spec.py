PATH="mathlib.Core.Path.{_≡_, refl, sym, ap, _∙_}"
PROOFS={"next_place":dict(uses=[PATH,"mathlib.Core.Bool.{true}","Prim.Native.Nat.{ℕ}","borrow.Author.Tests.{not-false}","Rattle·sites.specs.Sites.{listed}","Rattle·method.specs.declared.Stage.{Stage}","Rattle·method.specs.declared.Step.{Step}","Rattle·method.specs.Records.{rowAt, partAt}","Rattle·method.specs.Stages.{stepOf}","Rattle·stages·specs.specs.Place.{placeOf}","Rattle·cells.specs.Layout.{tableFrom}"],
 before='''-- is the site listed? As the code asks it
asked : (c : tie.After-has-site) → listed (rowAt (tableFrom (c @args .c .now)) (c @args .slot) .sites) (c @args .s) ≡ c .has-site .result
asked c = sym (c .has-site .ensures ∙ ap (λ (x : ℕ). listed x (c @args .s)) (c @sites-at .ensures))

-- the step, as the definition has it
stepped : (c : tie.After-next-step) → stepOf (partAt (rowAt (tableFrom (c @args .c .now)) (c @args .slot)) (c @args .s) .stage) (c @args .p) ≡ c .next-step .result
stepped c = ap (λ (g : Stage). stepOf g (c @args .p)) (sym (c @stage-at .ensures)) ∙ sym (c .next-step .ensures)
''',
 answers={"returns":("placeOf","sym (rw (asked (c @@After-has-site), c .if1 .taken))"),
 "returns-2":("placeOf","sym (rw (asked (c @@After-has-site) ∙ not-false _ (c @@Else1 .if1 .left), stepped (c @@After-next-step) ∙ c @g .given .1))"),
 "returns-3":("placeOf","sym (rw (asked (c @@After-has-site) ∙ not-false _ (c @@Else1 .if1 .left), stepped (c @@After-next-step) ∙ c @enum-told .given .1))")})}
