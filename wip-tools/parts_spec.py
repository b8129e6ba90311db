PATH="mathlib.Core.Path.{_≡_, refl, sym, ap, _∙_}"
TF="Rattle·cells.specs.Layout.{tableFrom}"
AT='''at : (c : tie.In-loop Inv-loop μ-loop) → Turn (c .before .loop .left)
at c = turn (c .before .loop .left) (c .loop-test .taken) (c .before .loop .inv .0)
'''
ROWU="Rattle·method.specs.declared.Row.{Row}"
PROOFS={
"prepared_sites":dict(head="`parts::prepared_sites` meets its contract: those counted and those among the sites that are left make up all.",
 uses=[PATH,"Prim.Native.Nat.{suc, _+_, _-_, _<_, _≤_}","native.Mathlib.Omega.{arith}","lib.Bits.{bitAnd}","lib.Count.{trailingZeros}","lib.ListN.{length}","Rattle·sites.specs.Sites.{sitesOf, Turn}","Rattle·sites.proofs.SitesLaws.{used-le}","Rattle·sites.proofs.ByteLaws.{turn, sites-zero}",ROWU,"Rattle·method.specs.declared.Stage.{Stage}","Rattle·method.specs.Records.{rowAt, partAt}",TF,"Rattle·parts·specs.specs.Counted.{counted}","Rattle·parts·proofs.proofs.PreparedLaws.{prepared, counted-le, prepared-more}"],
 inv=("c i n₀ left₀ n left","(left < 256) × (n + prepared (rowAt (tableFrom c) i) (sitesOf left) ≡ prepared (rowAt (tableFrom c) i) (sitesOf (rowAt (tableFrom c) i .sites))) × (n + length (sitesOf left) ≤ 8)","left"),
 before=AT+'''
-- what a turn counts
one : (c : tie.After-counts Inv-loop μ-loop) → c .counts .result ≡ counted (partAt (rowAt (tableFrom (c @args .c .now)) (c @args .i)) (trailingZeros 8 (c @loop .left)) .stage)
one c = c .counts .ensures ∙ ap counted (c @stage-at .ensures)
''',
 answers={"loop-holds":"let a = c @args in (search needs, rw (c @sites-at .ensures) (omega arith), omega (arith, used-le (c @sites-at .result)))",
 "cast-s":"omega (arith, at c .site)",
 "add-n":"let l = c @@At-loop in omega (arith, one c, counted-le (partAt (rowAt (tableFrom (c @args .c .now)) (c @args .i)) (trailingZeros 8 (l .loop .left)) .stage), l .loop .inv .2)",
 "sub-left":"omega (arith, at (c @@In-loop) .falls)","loop-less":"at (c @@In-loop) .falls",
 "loop-again":"let l = c @loop in let r = rowAt (tableFrom (c @args .c .now)) (c @args .i) in let a = at (c @@In-loop) in let s = trailingZeros 8 (l .left) in let ss = sitesOf (bitAnd (l .left) (l .left - 1)) in let e : prepared r (sitesOf (l .left)) ≡ counted (partAt r s .stage) + prepared r ss = rw (a .step) (prepared-more r s ss) in let n : length (sitesOf (l .left)) ≡ suc (length ss) = rw (a .step) in (omega (arith, a .falls), omega (arith, e, l .inv .1, one c), omega (arith, n, l .inv .2, one c, counted-le (partAt r s .stage)))",
 "returns":"let e : prepared (rowAt (tableFrom (c @args .c .now)) (c @args .i)) (sitesOf (c @loop .left)) ≡ 0 = rw (c @loop-test .left, sites-zero) in omega (arith, c @loop .inv .1, e)"}),
"is_prepared":dict(uses=[PATH,"borrow.Author.Tests.{not-false}","Rattle·method.specs.Records.{rowAt}",TF,"Rattle·parts·proofs.proofs.PreparedLaws.{prepared-of-counts}"],answers={
 "returns":"sym (rw (sym (c @is-active .ensures), c .if1 .taken))",
 "returns-2":"let r = rowAt (tableFrom (c @args .c .now)) (c @args .i) in rw (c @prepared-sites .ensures, c @used .ensures, c @sites-at .ensures) (prepared-of-counts r (sym (c @is-active .ensures) ∙ not-false _ (c @@Else1 .if1 .left)))"}),
"raise":dict(head="`parts::raise` meets its contract: what the sites that are left would make of the cells so far is what all sites make of those at hand.",
 uses=[PATH,"mathlib.Core.List.{List}","Prim.Native.Nat.{ℕ, _<_, _-_, max}","native.Mathlib.Omega.{arith}","lib.Bits.{bitAnd}","lib.Count.{trailingZeros}","lib.ListN.{getD}","Rattle·sites.specs.Sites.{sitesOf, Turn}","Rattle·sites.proofs.ByteLaws.{turn, sites-zero}",ROWU,"Rattle·method.specs.declared.Ticket.{Ticket}","Rattle·method.specs.Records.{ticket, rowAt, partAt, highAt, pastEnd}",TF,"Rattle·cells.specs.Puts.{putHigh}","Rattle·cells.specs.After.{cellsRaised}","Rattle·cells.proofs.HeadLaws.{rows-of-high}"],
 inv=("c₀ i left₀ c left","(left < 256) × (cellsRaised (rowAt (tableFrom c₀) i) (sitesOf (rowAt (tableFrom c₀) i .sites)) c₀ ≡ cellsRaised (rowAt (tableFrom c₀) i) (sitesOf left) c) × (tableFrom c .rows ≡ tableFrom c₀ .rows)","left"),
 before=AT+"""
-- what a turn writes
module _ (c : tie.After-higher Inv-loop μ-loop) where
  abbrev i : ℕ
  i = c @args .i

  abbrev row : Row
  row = rowAt (tableFrom (c @args .c .now)) i

  abbrev s : ℕ
  s = trailingZeros 8 (c @loop .left)

  topped : c .higher .result ≡ ticket (max (highAt (tableFrom (c @loop .c)) s) (partAt row s .ticket .0))
  topped =
      c .higher .ensures
      ∙ ap (λ (h : Ticket). ticket (max (h .0) (c @ticket-at .result .0))) (c @high-at .ensures)
      ∙ ap (λ (k : Ticket). ticket (max (highAt (tableFrom (c @loop .c)) s) (k .0))) (c @ticket-at .ensures ∙ ap (λ (rs : List Row). partAt (getD rs i pastEnd) s .ticket) (c @loop .inv .2))
""",
 answers={"loop-holds":"(search needs, rw (c @sites-at .ensures) refl, refl)","cast-s":"omega (arith, at c .site)","sub-left":"omega (arith, at (c @@In-loop) .falls)","loop-less":"at (c @@In-loop) .falls",
 "loop-again":("cellsRaised","let l = c @loop in let a = at (c @@In-loop) in let h = c @@After-higher in (omega (arith, a .falls), l .inv .1 ∙ rw (a .step) (ap (cellsRaised (row h) (sitesOf (bitAnd (l .left) (l .left - 1)))) (ap (putHigh (l .c) (s h)) (sym (topped h)) ∙ sym (c @put-high .ensures))), ap (λ (d : List ℕ). tableFrom d .rows) (c @put-high .ensures) ∙ rows-of-high (l .c) (s h) (c @higher .result) ∙ l .inv .2)"),
 "returns":("cellsRaised","sym (c @loop .inv .1 ∙ rw (c @loop-test .left, sites-zero))")}),
}
