PATH="mathlib.Core.Path.{_≡_, refl, sym, ap, _∙_}"
T="borrow.Author.Tests.{eq-eqb, ne-eqb}"
ROW="Rattle·method.specs.declared.Row.{Row}"
PROOFS={
"goes_before":dict(pre="""-- what sites s and later say
abbrev from : ℕ → Row → Row → Bool
from s a b = anySite beforeb (drop s (ticketsOf a)) (drop s (ticketsOf b))
""",head="`blockers::goes_before` meets its contract: what is found from site 0 on is what is found from site s on.",
 uses=[PATH,"mathlib.Core.Bool.{Bool}","Prim.Native.Nat.{ℕ, _≤_, _-_}","native.Mathlib.Omega.{arith}","lib.ListN.{length, drop}","Rattle·orders.specs.Arrow.{anySite, beforeb, ticketAt}",ROW,"Rattle·method.specs.declared.Ticket.{Ticket}","Rattle·method.specs.Records.{rowAt, ticketsOf, goesb}","Rattle·method.proofs.SearchLaws.{site-hit, site-skip, site-end}","Rattle·method.proofs.RowLaws.{ticket-part, length-tickets}","Rattle·cells.specs.Layout.{tableFrom}","Rattle·cells.proofs.TableLaws.{sites-of-row}"],
 inv=("c i j s₀ s","(s ≤ 8) × (goesb (rowAt (tableFrom c) i) (rowAt (tableFrom c) j) ≡ from s (rowAt (tableFrom c) i) (rowAt (tableFrom c) j)) × (length (ticketsOf (rowAt (tableFrom c) i)) ≡ 8) × (length (ticketsOf (rowAt (tableFrom c) j)) ≡ 8)","8 - s"),
 before='''-- the test at site s, as the definition has it
module _ (c : tie.After-is-before Inv-loop μ-loop) where
  abbrev l : tie.At-loop Inv-loop μ-loop
  l = c @@At-loop

  abbrev a : Row
  a = rowAt (tableFrom (c @args .c .now)) (c @args .i)

  abbrev b : Row
  b = rowAt (tableFrom (c @args .c .now)) (c @args .j)

  abbrev s : ℕ
  s = c @loop .s

  tested : c .is-before .result ≡ beforeb (ticketAt (ticketsOf a) s) (ticketAt (ticketsOf b) s)
  tested = rw (ticket-part a s, ticket-part b s, ap (λ (k : Ticket). k .0) (sym (c @ticket-at .ensures)), ap (λ (k : Ticket). k .0) (sym (c @ticket-at2 .ensures))) (c .is-before .ensures)
''',
 answers={"loop-holds":"let r = c .args in (search needs, refl, length-tickets (rowAt (tableFrom (r .c .now)) (r .i)) ∙ sites-of-row (r .c .now) (r .i) (c .pre .0), length-tickets (rowAt (tableFrom (r .c .now)) (r .j)) ∙ sites-of-row (r .c .now) (r .j) (c .pre .1))",
 "returns":"let k = c @@After-is-before in sym (l k .loop .inv .1 ∙ site-hit beforeb (ticketsOf (a k)) (ticketsOf (b k)) (s k) (omega arith) (omega arith) (sym (tested k) ∙ c .if1 .taken))",
 "loop-again":"let k = c @@After-is-before in (search needs, l k .loop .inv .1 ∙ site-skip beforeb (ticketsOf (a k)) (ticketsOf (b k)) (s k) (omega arith) (omega arith) (sym (tested k) ∙ c .if1 .left), l k .loop .inv .2, l k .loop .inv .3)",
 "returns-2":"let l = c @@At-loop in let r = c @args in sym (l .loop .inv .1 ∙ site-end beforeb (ticketsOf (rowAt (tableFrom (r .c .now)) (r .i))) (ticketsOf (rowAt (tableFrom (r .c .now)) (r .j))) (l .loop .s) (omega arith))"}),
"points_to":dict(before="""-- nothing goes before a slot that no table has
none-after : (b : Bool) (xs : Tickets) → b && arrowb xs [] ≡ false
none-after false xs = refl
none-after true [] = refl
none-after true (x ∷ xs) = refl
""",uses=[PATH,"mathlib.Core.Bool.{Bool, _&&_, true, false}","mathlib.Core.List.{[], _∷_}",ROW,"Rattle·orders.specs.Arrow.{Tickets, arrowb}","Rattle·method.specs.Records.{committed, ticketsOf, goesb, rowAt}","Rattle·cells.specs.Layout.{tableFrom}","Rattle·cells.proofs.TableLaws.{row-past}","native.Mathlib.Omega.{arith}"],answers={
 "returns":"let a = c @args in sym (ap (λ (r : Row). committed r && goesb r (rowAt (tableFrom (a .c .now)) (a .j))) (row-past (a .c .now) (a .i) (c .if1 .taken)))",
 "returns-2":("ticketsOf","let a = c @args in let r = rowAt (tableFrom (a .c .now)) (a .i) in sym (ap (λ (q : Row). committed r && goesb r q) (row-past (a .c .now) (a .j) (c .if2 .taken)) ∙ none-after (committed r) (ticketsOf r))"),
 "goes-before-requires":"(omega (arith, c @@Else1 .if1 .left), omega (arith, c @@Else2 .if2 .left))",
 "returns-3":"c @goes-before .ensures ∙ sym (rw (sym (c @is-committed .ensures) ∙ c @if3 .taken))",
 "returns-4":"sym (rw (sym (c @is-committed .ensures) ∙ c @if3 .left))"}),
"is_older":dict(uses=[PATH,"Rattle·method.specs.declared.Number.{Number}"],answers={
 "returns-2":"sym (rw (sym (c @is-active .ensures) ∙ c @if1 .left))","returns":"rw (sym (c @is-active .ensures) ∙ c @if1 .taken, c @number-at .ensures)"}),
}
