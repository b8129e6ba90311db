PATH="mathlib.Core.Path.{_≡_, refl, sym, ap, _∙_}"
USES=[PATH,"mathlib.Core.Bool.{Bool}","mathlib.Core.List.{List, [], _∷_}","mathlib.Core.Option.{some, none}","Prim.Native.Nat.{ℕ}",
"Rattle·method.specs.declared.Stage.{Stage}","Rattle·method.specs.declared.Report.{Report}","Rattle·method.specs.declared.Row.{Row}","Rattle·method.specs.declared.Ticket.{Ticket}","Rattle·method.specs.declared.Table.{Table}",
"Rattle·method.specs.Records.{part, rowAt, partAt}","Rattle·method.specs.Slots.{rowOfNumber}"]
USES2=["Rattle·method.specs.Effects.{effect}","Rattle·slots.specs.declared.Gate.{Gate}","Rattle·slots.specs.Gate.{gateOf}","Rattle·stages.specs.declared.Place.{Place}","Rattle·stages.specs.Place.{placeOf}",
"Rattle·cells.specs.Layout.{tableFrom}","Rattle·cells.specs.Puts.{putPart}","Rattle·cells.specs.After.{cellsEffect}","Rattle·cells.proofs.AfterLaws.{stopped-cells, done-cells}","Rattle·reports·proofs.proofs.ReportLaws.{shared, report-unknown, report-misplaced, report-on, report-base, report-put}"]
def common(R,call,rest,checks):
    A=f"(cells e) (n e) (s e) Report.{R} (rest e) ({call}) (same e)"
    return A,f'''-- what the call was handed
module _ (e : tie.After-enter) where
  abbrev cells : List ℕ
  cells = e @args .c .now

  abbrev n : ℕ
  n = e @args .n .0

  abbrev s : ℕ
  s = e @args .s

  -- the checks behind the shared ones
  abbrev rest : List (ℕ × Bool)
  rest = {rest}

  abbrev same : checks (tableFrom cells) ({call.replace(" e)",")").replace("(n)","n").replace("(s)","s")}) ≡ shared (tableFrom cells) n s Report.{R} rest
  unfolding checks
  same = refl

-- past the gate
module _ (c : tie.After-known-told2) where
  abbrev gate : tie.After-enter
  gate = c @@After-enter

  abbrev slot : ℕ
  slot = c @slot .given .0 .0

  at : gateOf (tableFrom (cells gate)) (n gate) ≡ Gate.At slot
  at = sym (gate .enter .ensures) ∙ c @slot .given .1

-- past the place
module _ (c : tie.After-known-told4) where
  abbrev found : tie.After-known-told2
  found = c @@After-known-told2

  abbrev g : Stage
  g = c @g .given .0 .0

  to : placeOf (rowAt (tableFrom (cells (gate found))) (slot found)) (s (gate found)) Report.{R} ≡ Place.To g
  to = sym (c @next-place .ensures) ∙ c @g .given .1

  on : let e = gate found in firstTrue (checks (tableFrom (cells e)) ({call})) ≡ firstTrue (rest e)
  on = let e = gate found in report-on {A} (slot found) (at found) g to
'''
prep_call="reportPrepared (n e) (s e)"
A,before=common("Prepared",prep_call,"[]","")
PROOFS={"report_prepared":dict(head="`reports::report_prepared` meets its contract: past the gate and the place no check is left.",
 uses=USES+["Rattle·method.specs.Calls.{checks, firstTrue}","Rattle·method.specs.Calls.Call.{reportPrepared}"]+USES2,before=before,
 answers={
 "enum-known-x":"c .match .keys1","enum-known-slot":"c .match .keys2","enum-known-y":"c .match2 .keys1","enum-known-g":"c .match2 .keys2",
 "returns":f"let e = c @@After-enter in stopped-cells _ _ _ (report-unknown {A} _ (sym (e .enter .ensures) ∙ c @x .given .1))",
 "returns-2":f"let f = c @@After-known-told2 in let e = c @@After-enter in stopped-cells _ _ _ (report-misplaced {A} (slot f) (at f) _ (sym (c @next-place .ensures) ∙ c @y .given .1))",
 "returns-3":("effect cellsEffect",f"let q = c @@After-known-told4 in let e = c @@After-enter in let put = report-put {A} (slot (found q)) (at (found q)) (g q) (to q) (λ (r : Row). partAt r (s e) .ticket) in done-cells _ _ (on q) _ refl _ (c @put-part .ensures ∙ ap (λ (b : Ticket). putPart (cells e) (slot (found q)) (s e) (part (g q) b (c @ticket-at .result))) (c @base-at .ensures) ∙ ap (λ (k : Ticket). putPart (cells e) (slot (found q)) (s e) (part (g q) (partAt (rowAt (tableFrom (cells e)) (slot (found q))) (s e) .base) k)) (c @ticket-at .ensures) ∙ put)")})}
call="reportTicket (n e) (s e) (k e)"
A,before=common("Ticket",call,"(5, low) ∷ (6, rival) ∷ []","")
before=before.replace('''  -- the checks behind''','''  abbrev k : ℕ
  k = e @args .k .0

  abbrev low : Bool
  low = notAbove (rowOfNumber (tableFrom cells) n) s k

  abbrev rival : Bool
  rival = taken (tableFrom cells) n s k

  -- the checks behind''').replace("(reportTicket n s (k))","(reportTicket n s k)")
before+='''
-- the base of the slot that was found is the row's
module _ (c : tie.After-struct-known2) where
  abbrev placed : tie.After-known-told4
  placed = c @@After-known-told4

  based : let e = gate (found placed) in c @base-at .result .0 ≡ partAt (rowOfNumber (tableFrom (cells e)) (n e)) (s e) .base .0
  based =
      let e = gate (found placed) in
      ap (λ (b : Ticket). b .0) (c @base-at .ensures) ∙ report-base AAA (slot (found placed)) (at (found placed)) (g placed) (to placed)
'''.replace("AAA",A)
PROOFS["report_ticket"]=dict(head="`reports::report_ticket` meets its contract: past the gate and the place two checks are left.",
 uses=USES+["lib.Dec.{leb}","borrow.Author.Tests.{le-leb, lt-leb}","native.Mathlib.Omega.{arith}","Rattle·method.specs.Conditions.{notAbove, taken}","Rattle·method.specs.Calls.{checks, firstTrue}","Rattle·method.specs.Calls.Call.{reportTicket}","Rattle·method.proofs.CheckLaws.{first-true, first-false}"]+USES2,before=before,
 answers={
 "enum-known-x":"c .match .keys1","enum-known-slot":"c .match .keys2","enum-known-y":"c .match2 .keys1","enum-known-g":"c .match2 .keys2",
 "returns":"let b = c @@After-struct-known2 in let e = c @@After-enter in stopped-cells _ _ 5 (on (placed b) ∙ first-true 5 (low e) ((6, rival e) ∷ []) (rw (sym (based b)) (le-leb _ _ (c .if1 .taken))))",
 "returns-2":"let b = c @@After-struct-known2 in let e = c @@After-enter in stopped-cells _ _ 6 (on (placed b) ∙ first-false 5 (low e) ((6, rival e) ∷ []) (rw (sym (based b)) (lt-leb _ _ (c @@Else1 .if1 .left))) ∙ first-true 6 (rival e) [] (sym (c @has .ensures) ∙ c .if2 .taken))",
 "returns-3":f"let e = c @@After-enter in stopped-cells _ _ _ (report-unknown {A} _ (sym (e .enter .ensures) ∙ c @x .given .1))",
 "returns-4":f"let f = c @@After-known-told2 in let e = c @@After-enter in stopped-cells _ _ _ (report-misplaced {A} (slot f) (at f) _ (sym (c @next-place .ensures) ∙ c @y .given .1))",
 "returns-5":("effect cellsEffect",f"let b = c @@After-struct-known2 in let q = c @@After-known-told4 in let e = c @@After-enter in let put = report-put {A} (slot (found q)) (at (found q)) (g q) (to q) (λ (r : Row). c @args .k) in done-cells _ _ (on q ∙ first-false 5 (low e) ((6, rival e) ∷ []) (rw (sym (based b)) (lt-leb _ _ (c @@Else1 .if1 .left))) ∙ first-false 6 (rival e) [] (sym (c @has .ensures) ∙ c @@Else2 .if2 .left)) _ refl _ (c @put-part .ensures ∙ ap (λ (x : Ticket). putPart (cells e) (slot (found q)) (s e) (part (g q) x (c @args .k))) (c @base-at .ensures) ∙ put)")})
