PATH="mathlib.Core.Path.{_≡_, refl, sym, ap, _∙_}"
TF="Rattle·cells.specs.Layout.{tableFrom}"
LIST=[PATH,"lib.ListN.{replicate, take, drop}","lib.Seq.{length-take-le}","Rattle·endian.specs.Bytes.{words}","Rattle·replies·proofs.proofs.PartsLaws.{words-handed}"]
calls=["open","begin","report-ticket","report-prepared","abort","decide","forget","sweep"]
ans={}
for i,f in enumerate(calls):
    q="q" if i==0 else f"q{i+1}"
    g=f"c @{q} .given .1" if f!="sweep" else "c @enum-told .given .1"
    ans["returns" if i==0 else f"returns-{i+1}"]=("desk",f"let a = c @args in handed (a .c .now) _ (a .body .now) (a .q) _ (c @pre) ({g}) _ refl (c @{f} .result) (c @{f} .ensures)")
ans["returns-9"]="absurd (not-proposal (c @args .body .now) (c @args .q) (c @pre) _ (c @enum-told2 .given .1))"
ans["returns-10"]="absurd (not-order (c @args .body .now) (c @args .q) (c @pre) (c @enum-told3 .given .1))"
ans["open-requires"]="floors-of-request (c @args .body .now) _ _ (request-of-call (c @args .body .now) _ (c @pre) ∙ ap BodyAnswer.Request (c @q .given .1))"
for i in range(1,11):
    k={1:"enum-known-q",8:"enum-told",9:"enum-told-2",10:"enum-told-3"}.get(i,f"enum-known-q-{i}")
    ans[k]=f"c .match .keys{i}"
PROOFS={
"lists/open":dict(head="`replies::lists::open` meets its contract: the floors are the numbers that stand in the body from byte 5 on.",uses=LIST,answers={
 "slice-aggregate-open-with":"sym (length-take-le _ _ (search needs))","get-words-requires":"tt","open-with-requires":"tt",
 "returns":"rw (← floors-read (c @@After-floors3)) (c @open-with .ensures)"},
 mid={"returns":'''floors-read : (c : tie.After-floors3) → take (c @args .n) (c @get-words .last .1 .0) ≡ words (drop 5 (c @args .body .now))
floors-read c = let p = c @pre in words-handed (c @args .body .now) (replicate 38 0) _ 5 _ (p .0) (p .1) (p .2) (c @get-words .ensures .1)
'''}),
"lists/propose":dict(head="`replies::lists::propose` meets its contract: the numbers are those that stand in the body from byte 1 on.",uses=LIST,answers={
 "slice-aggregate-judge":"sym (length-take-le _ _ (search needs))","get-words-requires":"tt","judge-requires":"tt",
 "returns":"rw (← numbers-read (c @@After-numbers3)) (c @judge .ensures)"},
 mid={"returns":'''numbers-read : (c : tie.After-numbers3) → take (c @args .n) (c @get-words .last .1 .0) ≡ words (drop 1 (c @args .body .now))
numbers-read c = let p = c @pre in words-handed (c @args .body .now) (replicate 39 0) _ 1 _ (p .0) (p .1) (p .2) (c @get-words .ensures .1)
'''}),
"calls/call":dict(head="`replies::calls::call` meets its contract: the desk owes a call's message what the call gives.",uses=[PATH,"Rattle·wire.specs.declared.reader.BodyAnswer.{BodyAnswer}","Rattle·replies·specs.specs.Desk.{desk}","Rattle·replies·proofs.proofs.AskedLaws.{request-of-call, not-proposal, not-order, floors-of-request, handed}"],answers=ans),
"reply":dict(head="`replies::reply` meets its contract: each sort of body gets what the desk owes it.",uses=[PATH,"Rattle·wire.specs.Answers.{bodyAnswer}","Rattle·wire.specs.Body.{messageOf}","Rattle·lines.specs.declared.Words.{Words}","Rattle·lines.specs.Line.{Line, Line.say}","Rattle·replies·specs.specs.declared.asked.Asked.{Asked}","Rattle·replies·specs.specs.Asked.{askedOf}","Rattle·replies·proofs.proofs.AskedLaws.{request-of-proposal, numbers-of-request, nothing-due, proposal-due, order-due, call-due}"],
 before='''-- what the body asks for
sort : (c : tie.After-ask) (x : Asked) → c .ask .result ≡ x → askedOf (bodyAnswer (messageOf (c @args .body .now))) ≡ x
sort c x e = sym (c .ask .ensures) ∙ e
''',answers={"ask-requires":"tt","enum-told":"c .match .keys1","enum-known-q":"c .match .keys2","enum-known-n":"c .match .keys3","enum-told-2":"c .match .keys4",
 "call-requires":"sort (c @@After-ask) _ (c @q .given .1)","words-of-requires":"tt",
 "propose-requires":"let b = c @args .body .now in numbers-of-request b _ (request-of-proposal b _ (sort (c @@After-ask) _ (c @n .given .1)))",
 "returns":"nothing-due (c @args .c .now) (c @args .body .now) (sort (c @@After-ask) _ (c @enum-told .given .1))",
 "returns-2":"let a = c @args in let e = c @call .ensures in (e .0, (e .1 .0, call-due (a .c .now) (a .body .now) _ (sort (c @@After-ask) _ (c @q .given .1)) (c @words-of .result) (ap {B = Line} say (c @words-of .ensures) ∙ e .1 .1)))",
 "returns-3":"let a = c @args in proposal-due (a .c .now) (a .body .now) _ (sort (c @@After-ask) _ (c @n .given .1)) (c @propose .result) (c @propose .ensures)",
 "returns-4":"order-due (c @args .c .now) (c @args .body .now) (sort (c @@After-ask) _ (c @enum-told2 .given .1))"}),
}
