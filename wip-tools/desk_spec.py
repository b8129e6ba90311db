PATH="mathlib.Core.Path.{_≡_, refl, sym, ap, _∙_}"
TF="Rattle·cells.specs.Layout.{tableFrom}"
PROOFS={
"said/words":dict(head="`desk::said::words` meets its contract: words have room in 358 bytes.",uses=[PATH,"Rattle·lines.specs.Line.{Line.say}","Rattle·lines.proofs.WritingLaws.{written-of-358}","Rattle·desk·proofs.proofs.RangeLaws.{words-in-range}"],
 answers={"write-line-requires":"tt","returns":"let a = c @args in let r = written-of-358 (a .out .now) (a .place) (say (a .w)) (words-in-range (a .w) (c @good .0)) (c @pre) in (c @write-line .ensures .0 ∙ sym (r .0), c @write-line .ensures .1 ∙ sym (r .1))"}),
"said/say":dict(head="`desk::said::say` meets its contract: what the code can say has room in 358 bytes.",uses=[PATH,"Prim.Native.Nat.{_^_}","lib.ListN.{take}","Rattle·endian.specs.Places.{Below}","Rattle·endian.proofs.BelowLaws.{below-of-getD}","Rattle·lines.specs.Line.{Line, Line.order}","Rattle·lines.proofs.WritingLaws.{written-of-358}","Rattle·desk·proofs.proofs.RangeLaws.{order-in-range}"],
 answers={"enum-known-said":"c .match .keys1","enum-known-said-2":"c .match .keys2","write-order-requires":"tt",
 "returns":"rw (c @said .given .1) (c @words .ensures)",
 "returns-2":"let a = c @args in let b : Below (2 ^ 32) (a .numbers .now) = below-of-getD (2 ^ 32) (a .numbers .now) (λ i. c @shared-slice-known .given i .fits) in let r = written-of-358 (a .out .now) (a .place) (order (take (c @said2 .given .0 .0) (a .numbers .now))) (order-in-range (a .numbers .now) b (c @pre .0) (c @said2 .given .0 .0)) (c @pre .1) in rw (c @said2 .given .1) (c @write-order .ensures .0 ∙ sym (r .0), c @write-order .ensures .1 ∙ sym (r .1))"}),
"said/order":dict(head="`desk::said::order` meets its contract: what is given is what is said.",uses=[PATH,"native.Mathlib.Omega.{arith}","lib.ListN.{length}",TF,"Rattle·method.specs.Slots.{keptFlat}","Rattle·queries.specs.Queries.{orderLine, ifOpen}","Rattle·desk·proofs.proofs.GivenLaws.{given-line}"],
 before='''-- an order has at most 32 numbers
whole : (c : tie.After-give) → length (c .give .result .numbers) ≡ 32
whole c = search needs
''',
 answers={"give-requires":"tt","say-requires":"(omega (arith, whole (c @@After-give)), search needs)",
 "returns":"let t = tableFrom (c @args .c .now) in given-line (ifOpen t (orderLine (keptFlat t))) _ (c @give .ensures) _ (c @args .place) (c @args .out .now) _ (c @say .ensures)"}),
"serve":dict(head="`desk::serve` meets its contract: with room for the longest line, what was replied is written in full.",uses=[PATH,"Prim.Native.Nat.{_+_, _≤_}","native.Mathlib.Omega.{arith}","lib.ListN.{length}","Rattle·desk·proofs.proofs.ServedLaws.{serves-nothing, serves-words, serves-order}"],
 before='''-- there is room for the longest line
room : (c : tie.Else2) → c @args .place + 358 ≤ length (c @args .out .now)
room c = omega (arith, c .if2 .left, c @@Else1 .if1 .left)
''',
 answers={"returns":"let a = c @args in serves-nothing (a .c .now) (a .body .now) (a .out .now) (a .place) (omega (arith, c .if1 .taken))",
 "returns-2":"let a = c @args in serves-nothing (a .c .now) (a .body .now) (a .out .now) (a .place) (omega (arith, c .if2 .taken, c @@Else1 .if1 .left))",
 "reply-requires":"tt","enum-known-w":"c .match .keys1","enum-told":"c .match .keys2","words-requires":"room (c @@Else2)","order-requires":"room (c @@Else2)",
 "returns-3":"let a = c @args in serves-words (a .c .now) (a .body .now) (a .out .now) (a .place) (room (c @@Else2)) _ _ (c @reply .ensures) _ _ _ (c @w .given .1) (c @words .ensures)",
 "returns-4":"let a = c @args in serves-order (a .c .now) (a .body .now) (a .out .now) (a .place) (room (c @@Else2)) _ _ (c @reply .ensures) _ _ (c @enum-told .given .1) (c @order .ensures)"}),
}
