PATH="mathlib.Core.Path.{_≡_, refl, sym, ap, _∙_}"
TF="Rattle·cells.specs.Layout.{tableFrom}"
FEW='''-- at most 32 rows are kept
module _ (c : tie.After-rows) where
  whole : length (c .rows .result .rows) ≡ 288
  whole = search needs

  few : 9 * c .rows .result .count ≤ 288
  few = kept-few _ _ (c .rows .ensures .0) (c .rows .ensures .1) whole
'''
U=[PATH,"Prim.Native.Nat.{_*_, _≤_}","native.Mathlib.Omega.{arith}","lib.ListN.{length}","lib.Seq.{length-take-le}"]
PROOFS={
"asking/check_kept":dict(head="`queries::asking::check_kept` meets its contract: the part that is checked is the kept rows.",uses=U+["Rattle·queries·proofs.proofs.PartLaws.{kept-few, checked}"],before=FEW,
 answers={"mul-end":"omega (arith, few (c @@After-rows))","array-share-prefix-rows":"omega (arith, few (c @@After-rows), whole (c @@After-rows))","slice-aggregate-check":"sym (length-take-le _ _ (omega (arith, few (c @@After-rows), whole (c @@After-rows))))",
 "returns":"let k = c @rows in checked _ _ (k .ensures .0) (k .ensures .1) _ _ _ (c .check .ensures) refl"}),
"asking/write_kept":dict(head="`queries::asking::write_kept` meets its contract: the part that the writer is given is the kept rows.",uses=U+["Rattle·queries·proofs.proofs.PartLaws.{kept-few, written}"],before=FEW,
 answers={"mul-end":"omega (arith, few (c @@After-rows))","array-share-prefix-rows":"omega (arith, few (c @@After-rows), whole (c @@After-rows))","slice-aggregate-write":"sym (length-take-le _ _ (omega (arith, few (c @@After-rows), whole (c @@After-rows))))",
 "returns":"let e = c @rows .ensures in let w = written _ _ (e .0) (e .1) _ _ _ _ _ (c @write .ensures) refl refl in (w .0, (w .1, omega (arith, few (c @@After-rows), e .1)))"}),
"judge":dict(head="`queries::judge` meets its contract: whatever the check answered to the kept rows, that is said.",uses=[PATH,"Rattle·method.specs.Slots.{keptFlat}","Rattle·orders.specs.Reply.{checkReply}",TF,"Rattle·queries·proofs.proofs.AnswerLaws.{proposal-line, shut-line, open-line}"],
 answers={"returns":"shut-line (tableFrom (c @args .c .now)) _ (sym (c @sites .ensures) ∙ c .if1 .taken)",
 "returns-2":"let t = tableFrom (c @args .c .now) in proposal-line (keptFlat t) (checkReply (c @check-kept .result)) _ (c @check-kept .ensures) _ (c @judged .ensures) ∙ open-line t _ (λ q. c @@Else1 .if1 .left (c @sites .ensures ∙ q))"}),
"give":dict(head="`queries::give` meets its contract: whatever the writer answered to the kept rows, that is said.",uses=[PATH,"Rattle·method.specs.Slots.{keptFlat}","Rattle·orders.specs.Reply.{writeReply}",TF,"Rattle·queries·specs.specs.Said.{spokenOf}","Rattle·queries·proofs.proofs.AnswerLaws.{order-spoken, shut-line, open-line}"],
 answers={"returns":"c @speak .ensures ∙ ap spokenOf (shut-line (tableFrom (c @args .c .now)) _ (sym (c @sites .ensures) ∙ c @@Then1 .if1 .taken))",
 "returns-2":"let t = tableFrom (c @args .c .now) in let e = c @write-kept .ensures in order-spoken (keptFlat t) (writeReply (c @write-kept .result)) _ (e .1 .1) (e .0, e .1 .0) _ (c @written .ensures) ∙ ap spokenOf (open-line t _ (λ q. c @@Else1 .if1 .left (c @sites .ensures ∙ q)))"}),
}
