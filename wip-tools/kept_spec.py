PATH="mathlib.Core.Path.{_≡_, refl, sym, ap, _∙_}"
TF="Rattle·cells.specs.Layout.{tableFrom}"
NUM="Rattle·method.specs.declared.Number.{Number}"
TIC="Rattle·method.specs.declared.Ticket.{Ticket}"
PROOFS={
"aligned/lay_tickets":dict(head="`kept::lay_tickets` meets its contract: after s turns the first s tickets are laid down.",
 uses=[PATH,"mathlib.Core.List.{List}","Prim.Native.Nat.{ℕ, _-_, _+_, _*_, _<_, _≤_}","native.Mathlib.Omega.{arith}","lib.ListN.{length, set}",TIC,"Rattle·method.specs.Records.{rowAt, partAt}",TF,"Rattle·kept·specs.specs.Aligned.{RowLaid}","Rattle·kept·proofs.proofs.AlignedLaws.{laid-none, laid-more}"],
 inv=("flat₀ c i s₀ flat s","(s ≤ 8) × (i < 32) × (length flat ≡ 256) × RowLaid flat₀ i (rowAt (tableFrom c) i) s flat","8 - s"),
 answers={"loop-holds":"(search needs, c .pre .0, c .pre .1, laid-none (c .pre .1))",
 "mul-flat":"omega arith","add-flat":"omega arith","mul-flat-2":"omega arith","element-write-flat":"omega arith",
 "loop-again":"let l = c @loop in let v = l .inv in let more : RowLaid (c @args .flat .now) (c @args .i) (rowAt (tableFrom (c @args .c .now)) (c @args .i)) (l .s + 1) (set (l .flat) (8 * c @args .i + l .s) (c @ticket-at .result .0)) = rw (c @ticket-at .ensures) (laid-more (v .1) (omega arith) (v .3)) in (search needs, v .1, more .size, more)",
 "returns":"let l = c @loop in let e : l .s ≡ 8 = omega arith in rw e at (l .inv .3)"}),
"aligned/tickets":dict(head="`kept::aligned::tickets` meets its contract: after i turns the slots below i are laid down, and behind them all is zero.",
 uses=[PATH,"mathlib.Core.Logic.{⊎-elim}","Prim.Native.Nat.{_-_, _<_}","native.Mathlib.Omega.{arith}",TF,"Rattle·cells.proofs.TableLaws.{sites-of-row}","Rattle·kept·specs.specs.Aligned.{AlignedBelow}","Rattle·kept·proofs.proofs.AlignedLaws.{zeros, aligned-none, aligned-laid, aligned-skip, aligned-all}"],
 inv=("c chosen flat₀ i₀ flat i","AlignedBelow (tableFrom c) chosen i flat","32 - i"),
 answers={"loop-holds":"aligned-none (tableFrom (c .args .c .now)) (c .args .chosen) refl (zeros 256)",
 "lay-tickets-requires":"(search needs, c @loop .inv .size)",
 "loop-again":"let l = c @@At-loop in let a = c @args in let below : l .loop .i < 32 = omega arith in let is = sym (c @is-committed .ensures) in ⊎-elim (λ w. rw (w .3) (aligned-laid (tableFrom (a .c .now)) (a .chosen) below (rw is (w .0 .taken)) (sites-of-row (a .c .now) (l .loop .i) below) (l .loop .inv) (w .2 .ensures))) (λ w. rw (w .1) (aligned-skip (tableFrom (a .c .now)) (a .chosen) below (rw is (w .0 .left)) (l .loop .inv))) (c .if1 .came)",
 "returns":"let l = c @@At-loop in let a = c @args in aligned-all (tableFrom (a .c .now)) (a .chosen) (c .loop-test .left) (l .loop .inv)"}),
"packed/lay_entries":dict(head="`kept::lay_entries` meets its contract: after s turns the number and the first s tickets are laid down.",
 uses=[PATH,"Prim.Native.Nat.{ℕ, _+_, _-_, _≤_, _<_}","native.Mathlib.Numerals.{add-one}","native.Mathlib.Omega.{arith}","lib.ListN.{length, set, length-set}","lib.Seq.{paste, paste-zero, paste-suc}","denote.Ref.{now}",NUM,TIC,"Rattle·method.specs.Records.{rowAt, ticketsOf}","Rattle·method.proofs.RowLaws.{ticket-part, length-tickets}",TF,"Rattle·cells.proofs.TableLaws.{sites-of-row}","Rattle·kept·proofs.proofs.PackedLaws.{laid-entries}"],
 inv=("flat₀ at c i s₀ flat s","(s ≤ 8) × (at + 9 ≤ 288) × (length flat₀ ≡ 288) × (length flat ≡ 288) × (length (rowAt (tableFrom c) i .parts) ≡ 8) × (flat ≡ paste flat₀ (at + 1) (ticketsOf (rowAt (tableFrom c) i)) s)","8 - s"),
 answers={"mul-flat":"omega (arith, c @pre .1)","element-write-flat":"omega (arith, c @pre .0, c @pre .1)",
 "loop-holds":"let a = c @args in let p = c @pre in let l = set (now (a .flat)) (a .at) (c @number-at .result .0) in (omega arith, p .1, simp length-set (p .0), simp length-set (p .0), sites-of-row (a .c .now) (a .i) (p .2), paste-zero l (a .at + 1) (ticketsOf (rowAt (tableFrom (a .c .now)) (a .i))))",
 "add-flat":"omega arith","add-flat-2":"omega arith","mul-flat-2":"omega arith","element-write-flat-2":"omega arith",
 "loop-again":"let l = c @@At-loop in let a = c @args in let s = l .loop .s in let i = l .loop .inv in let r = rowAt (tableFrom (a .c .now)) (a .i) in let m = set (now (a .flat)) (a .at) (c @number-at .result .0) in (omega arith, i .1, i .2, simp length-set (i .3), i .4, rw (c @ticket-at .ensures, i .5, ← ticket-part r s, add-one s) (paste-suc m (a .at + 1) (ticketsOf r) s 0 (simp length-set (omega arith)) (rw (length-tickets r) (omega arith))))",
 "returns":"let l = c @@At-loop in let a = c @args in let i = l .loop .inv in let r = rowAt (tableFrom (a .c .now)) (a .i) in let e : l .loop .s ≡ 8 = omega arith in let w : length (now (a .flat)) ≡ 288 = c @pre .0 in (rw e at (i .5) ∙ ap (λ (x : Number). paste (set (now (a .flat)) (a .at) (x .0)) (a .at + 1) (ticketsOf r) 8) (c @number-at .ensures) ∙ laid-entries (now (a .flat)) (a .at) r (omega arith) (i .4), i .3)"}),
"packed/rows":dict(head="`kept::packed::rows` meets its contract: after i turns the rows of the first i slots are packed.",
 uses=[PATH,"mathlib.Core.Bool.{true, false, false≢true}","mathlib.Core.List.{[], _∷_, _++_}","mathlib.Core.Logic.{⊎-elim}","Prim.Native.Nat.{_+_, _*_, _-_, _≤_, _<_}","native.Mathlib.Numerals.{add-one}","native.Mathlib.Omega.{arith}","lib.ListN.{length, getD, take}","lib.Seq.{take-suc, take-all, length-take-le}","Rattle·method.specs.Records.{committed, pastEnd}",TF,"Rattle·cells.proofs.TableLaws.{slots-of-cells, sites-of-row}","Rattle·kept·specs.specs.Packed.{keptOf, packedOf, packedRows}","Rattle·kept·proofs.proofs.PackedLaws.{flat, count, packed-more, packed-same, size-grow, packed-none, flat-none, few, packed-all, packed-size}"],
 inv=("c rows₀ n₀ i₀ rows n i","(i ≤ 32) × (length rows ≡ 288) × (keptOf n rows ≡ packedRows (take i (tableFrom c .rows))) × (length (flat (take i (tableFrom c .rows))) ≡ 9 * count (take i (tableFrom c .rows)))","32 - i"),
 before='''-- fewer than 32 rows are packed so far
room : (l : tie.At-loop Inv-loop μ-loop) → l .loop .i < 32 → l .loop .n < 32
room l h = let c = l @args .c .now in rw (sym (l .loop .inv .2)) at (few (tableFrom c .rows) (l .loop .i) h (omega (arith, slots-of-cells c)))
''',
 answers={"loop-holds":"(search needs, refl, packed-none, flat-none)",
 "mul-lay-entries":"omega (arith, room (c @@At-loop) (omega arith))",
 "lay-entries-requires":"(c @loop .inv .1, omega (arith, room (c @@At-loop) (omega arith)), search needs)",
 "add-n":"omega (arith, room (c @@At-loop) (omega arith))",
 "loop-again":"""let l = c @@At-loop in
    let d = c @args .c .now in
    let rs = tableFrom d .rows in
    let m = l .loop .i in
    let i = l .loop .inv in
    let r = getD rs m pastEnd in
    let size = length-take-le m rs (omega (arith, slots-of-cells d)) in
    let short : length (take m rs) < 32 = omega (arith, size) in
    let more = take-suc rs m pastEnd (omega (arith, slots-of-cells d)) in
    let is = sym (c @is-committed .ensures) in
    let whole = sites-of-row d m (omega arith) in
    ⊎-elim
    (λ w. let yes : committed r ≡ true = is ∙ w .0 .taken in (
      search needs,
      rw (w .3) (w .2 .ensures .1),
      rw (w .3, w .4, w .2 .ensures .0, add-one m, more) (packed-more (take m rs) r (i .3) short yes (i .2)),
      rw (add-one m, more) (size-grow (take m rs) r (i .3) (λ e. whole)),
    ))
    (λ w. let no : committed r ≡ false = is ∙ w .0 .left in (
      search needs,
      rw (w .1) (i .1),
      rw (w .1, w .2, add-one m, more) (packed-same (take m rs) r (i .3) short no (i .2)),
      rw (add-one m, more) (size-grow (take m rs) r (i .3) (λ e. absurd (false≢true (sym no ∙ e)))),
    ))
    (c .if1 .came)""",
 "returns":"let l = c @@At-loop in let t = tableFrom (c @args .c .now) in let i = l .loop .inv in let all : take (l .loop .i) (t .rows) ≡ t .rows = take-all (l .loop .i) (t .rows) (omega (arith, slots-of-cells (c @args .c .now))) in let k = rw all at (i .2) in (k ∙ packed-all t, packed-size t (keptOf (l .loop .n) (l .loop .rows)) k (rw all at (i .3)))"}),
}
