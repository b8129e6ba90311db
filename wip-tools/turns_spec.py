PATH="mathlib.Core.Path.{_≡_, refl, sym, _∙_, ap, subst}"
PROOFS={"take_turn":dict(head="`turns::take_turn` meets its contract: the lines so far are in front of the buffer, and the rest of the turn is what a turn over the rest of the input is.",
 uses=[PATH,"mathlib.Core.Bool.{Bool, true, false, cond, not, _&&_}","mathlib.Core.List.{List}","Prim.Native.Nat.{ℕ, _+_, _-_, _^_, _<_, _≤_}","native.Mathlib.Omega.{arith}","lib.Dec.{eqb}","lib.ListN.{length, take, drop, length-drop}","denote.Ref.{now}","Rattle·endian.proofs.PartLaws.{part-is}","Rattle·endian.specs.Laid.{laid}","Rattle·frames.specs.Frame.{nextFrame, bodyTo, EndsAt}","Rattle·frames.specs.declared.FrameAnswer.{FrameAnswer}","Rattle·frames.specs.Stream.{streamOf}","Rattle·frames.specs.Answer.{frameAnswer, FrameMeans}","Rattle·frames.proofs.AnswerLaws.{frame-means}","Rattle·method.specs.declared.Table.{Table}","Rattle·cells.specs.Layout.{tableFrom}","Rattle·cells.specs.After.{cellsAfterAll}","Rattle·replies.specs.Desk.{deskBody, callsOf}","Rattle·desk.specs.Served.{bytesFor, servedCalls, servedTable, servedCount, servedOut}","Rattle·turns·specs.specs.Turn.{Turned, turn, stops, ends, eleven}","Rattle·turns·proofs.proofs.RoomLaws.{served-room, laid-fits}","Rattle·turns·proofs.proofs.TurnLaws.{Going, Ended, going-start, going-stops, going-ends, going-frame, turn-no-room, turn-bad, turn-not-yet, used-le, clauses}"],
 inv=("c₀ input last out₀ used₀ written₀ c out used written","(length out ≡ length out₀) × Going last c₀ input out₀ c used out written","length input - used"),
 before='''-- where a frame was looked for
module _ (c : tie.After-read-frame Inv-loop μ-loop) where
  abbrev input : List ℕ
  input = now (c @args .input)

  abbrev out : List ℕ
  out = now (c @args .out)

  abbrev last : Bool
  last = c @args .last

  abbrev first : List ℕ
  first = c @args .c .now

  abbrev cells : List ℕ
  cells = c @loop .c

  abbrev used : ℕ
  used = c @loop .used

  abbrev written : ℕ
  written = c @loop .written

  long : length input < 2 ^ 64
  long = c @good .1 .0 .0

  wide : length out < 2 ^ 64
  wide = c @good .1 .1 .1 .0 .0

  going : Going last first input out cells used (c @loop .out) written
  going = c @loop .inv .1

  room : 358 ≤ length out - written
  room = omega (arith, c @loop .inv .0)

  rest : take (length input - used) (drop used input) ≡ drop used input
  rest = part-is input used (going .inside)

  answer : c .read-frame .result ≡ frameAnswer (nextFrame (drop used input))
  answer = c .read-frame .ensures ∙ ap (λ l. frameAnswer (nextFrame l)) rest

  abbrev held-now : Table
  held-now = tableFrom cells

  abbrev on-rest : Turned
  on-rest = turn last held-now (length out - written) (streamOf (drop used input))

  abbrev whole-turn : Turned
  whole-turn = turn last (tableFrom first) (length out) (streamOf input)

  within-input : whole-turn .used ≤ length input
  within-input = used-le last (tableFrom first) (length out) input

  -- no whole frame: by what the code asks then
  waits : (b : Bool) → frameAnswer (nextFrame (drop used input)) ≡ FrameAnswer.NotYet → last && not (eqb (length (take (length input - used) (drop used input))) 0) ≡ b → on-rest ≡ cond b (ends held-now) (stops held-now)
  waits b e f =
      turn-not-yet last held-now (length out - written) room (drop used input) e
      ∙ ap (λ x. cond x (ends held-now) (stops held-now)) (ap (λ l. last && not (eqb (length l) 0)) (sym rest) ∙ f)

  stopping : on-rest ≡ stops held-now → Ended whole-turn first out cells used written false (c @loop .out)
  stopping = going-stops last first input out cells used (c @loop .out) written going

  ending : on-rest ≡ ends held-now → Ended whole-turn first out cells used (written + length eleven) true (laid (c @loop .out) written eleven)
  ending = going-ends last first input out cells used (c @loop .out) written going

-- where a frame was found
module _ (c : tie.After-known-told Inv-loop μ-loop) where
  abbrev read : tie.After-read-frame Inv-loop μ-loop
  read = c @@After-read-frame

  abbrev end : ℕ
  end = c @end .given .0 .0

  abbrev bytes : List ℕ
  bytes = drop (used read) (input read)

  frame : EndsAt end bytes
  frame = subst (FrameMeans bytes) (sym (answer read) ∙ c @end .given .1) (frame-means bytes)

  within : used read + end ≤ length (input read)
  within = omega (arith, frame .within, length-drop (used read) (input read), going read .inside)

-- where it was answered
module _ (c : tie.After-serve Inv-loop μ-loop) where
  abbrev found : tie.After-known-told Inv-loop μ-loop
  found = c @@After-known-told

  abbrev r : tie.After-read-frame Inv-loop μ-loop
  r = c @@After-read-frame

  abbrev held : Table
  held = held-now r

  abbrev buffer : List ℕ
  buffer = c @loop .out

  abbrev body : List ℕ
  body = bodyTo (end found) (bytes found)

  abbrev line : List ℕ
  line = bytesFor held body

  roomy : written r + 358 ≤ length buffer
  roomy = omega (arith, room r, c @loop .inv .0)

  body-is : take (end found - 3) (drop 3 (take (length (input r) - used r) (bytes found))) ≡ body
  body-is = ap (λ l. take (end found - 3) (drop 3 l)) (rest r)

  calls-are : c .serve .last .0 ≡ cellsAfterAll (cells r) (callsOf body)
  calls-are =
      c .serve .ensures .0
      ∙ ap (λ b. cellsAfterAll (cells r) (servedCalls b buffer (written r))) body-is
      ∙ ap (cellsAfterAll (cells r)) (served-room held body buffer (written r) roomy .0)

  table-is : tableFrom (c .serve .last .0) ≡ deskBody held body .0
  table-is =
      c .serve .ensures .1 .0
      ∙ ap (λ b. servedTable held b buffer (written r)) body-is
      ∙ served-room held body buffer (written r) roomy .1

  count-is : c .serve .result ≡ length line
  count-is =
      c .serve .ensures .1 .1 .0
      ∙ ap (λ b. servedCount held b buffer (written r)) body-is
      ∙ served-room held body buffer (written r) roomy .2

  buffer-is : c .serve .last .1 .1 .0 ≡ laid buffer (written r) line
  buffer-is =
      c .serve .ensures .1 .1 .1
      ∙ ap (λ b. servedOut held b buffer (written r)) body-is
      ∙ served-room held body buffer (written r) roomy .3

  fits : written r + length line ≤ length buffer
  fits = laid-fits buffer line (written r) (omega (arith, roomy)) (ap length (sym buffer-is) ∙ c .serve .kept .1 .1 .0)

  on : Going (last r) (first r) (input r) (out r) (c .serve .last .0) (used r + end found) (c .serve .last .1 .1 .0) (written r + c .serve .result)
  on =
      let G : List ℕ → ℕ → Type 0 = λ o n. Going (last r) (first r) (input r) (out r) (c .serve .last .0) (used r + end found) o n in
      let same = c @loop .inv .0 in
      let g = going-frame (last r) (first r) (input r) (out r) (cells r) (used r) buffer (written r) (going r) (room r) (end found) (frame found) (omega (arith, fits, same)) (c .serve .last .0) calls-are table-is in
      subst (λ o. G o (written r + c .serve .result)) (sym buffer-is)
      (subst (λ n. G (laid buffer (written r) line) (written r + n)) (sym count-is) g)
''',
 answers={
 "loop-holds":"let a = c @args in (refl, going-start (a .last) (a .c .now) (now (a .input)) (now (a .out)))",
 "sub-loop":"omega arith","sub-rest":"omega arith","part-rest-start":"omega arith","part-rest-end":"omega arith",
 "enum-known-end":"c .match .keys1",
 "sub-serve":"frame (c @@After-known-told) .start","part-serve-start":"frame (c @@After-known-told) .start","part-serve-end":"let k = c @@After-known-told in rw (rest (read k)) (frame k .within)",
 "add-written":"let s = c @@After-serve in omega (arith, count-is s, fits s, wide (c @@After-read-frame), c @loop .inv .0)",
 "add-used":"let s = c @@After-serve in omega (arith, within (found s), long (c @@After-read-frame))",
 "loop-less":"let s = c @@After-serve in omega (arith, within (found s), frame (found s) .start)",
 "loop-again":"let s = c @@After-serve in (c @serve .kept .1 .1 .0 ∙ c @loop .inv .0, on s)",
 "enum-told":"c .match .keys2","enum-told-2":"c .match .keys3",
 "same-length":"c @last-line .kept .1 .0 ∙ c @loop .inv .0",
 "returns":"let r = c @@After-read-frame in let l = c @last-line in clauses (whole-turn r) (first r) (input r) (out r) _ _ _ _ _ (ending r (waits r true (sym (answer r) ∙ c @enum-told .given .1) (c @@Then1 .if1 .taken))) (within-input r) (l .result) (l .ensures .0) _ (l .ensures .1) (same-length c)",
 "same-length-2":"c @loop .inv .0",
 "returns-2":"let r = c @@After-read-frame in clauses (whole-turn r) (first r) (input r) (out r) _ _ _ _ _ (stopping r (waits r false (sym (answer r) ∙ c @enum-told .given .1) (c .if1 .left))) (within-input r) _ refl _ refl (same-length-2 c)",
 "same-length-3":"c @last-line2 .kept .1 .0 ∙ c @loop .inv .0",
 "returns-3":"let r = c @@After-read-frame in let l = c @last-line2 in clauses (whole-turn r) (first r) (input r) (out r) _ _ _ _ _ (ending r (turn-bad _ _ _ (room r) _ (sym (answer r) ∙ c @enum-told2 .given .1))) (within-input r) (l .result) (l .ensures .0) _ (l .ensures .1) (same-length-3 c)",
 "same-length-4":"c @loop .inv .0",
 "returns-4":"let l = c @@At-loop in let a = c @args in let e = turn-no-room (a .last) (tableFrom (l .loop .c)) (length (now (a .out)) - l .loop .written) (omega (arith, l .loop .inv .0)) (streamOf (drop (l .loop .used) (now (a .input)))) in clauses (turn (a .last) (tableFrom (a .c .now)) (length (now (a .out))) (streamOf (now (a .input)))) (a .c .now) (now (a .input)) (now (a .out)) _ _ _ _ _ (going-stops (a .last) (a .c .now) (now (a .input)) (now (a .out)) (l .loop .c) (l .loop .used) (l .loop .out) (l .loop .written) (l .loop .inv .1) e) (used-le (a .last) (tableFrom (a .c .now)) (length (now (a .out))) (now (a .input))) _ refl _ refl (same-length-4 c)",
 })}
