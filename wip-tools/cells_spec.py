ROW="Rattle·method.specs.declared.Row.{Row}"
PATH="mathlib.Core.Path.{_≡_, refl, sym, ap, _∙_}"
LAY="Rattle·cells·specs.specs.Layout.{rowPlace, cell, rowFrom}"
TL="Rattle·cells·proofs.proofs.TableLaws."
def reader(field, past_ret=True):
    f=lambda sel: None
PROOFS={}
def slot_reader(name, sel, cellaw=None):
    # sel: function text on row
    row="(a .c .now) (a .i)"
    r1=f"let a = c @args in sym (ap (λ (r : Row). {sel}) (row-past {row} (c @@Then1 .if1 .taken)))"
    lt="(omega (arith, c @@Else1 .if1 .left))"
    r2=f"let a = c @args in sym (ap (λ (r : Row). {sel}) (row-at {row} (omega (arith, c @@Else1 .if1 .left)))"+(f" ∙ {cellaw} (cell (a .c .now) (rowPlace (a .i)))" if cellaw else "")+")"
    uses=[PATH,"native.Mathlib.Omega.{arith}",ROW,"Rattle·method.specs.Records.{isFree, isActive, isCommitted}",LAY,TL+"{row-at, row-past"+(f", {cellaw}" if cellaw else "")+"}"]
    PROOFS[name]=dict(uses=uses,answers={"returns":r1,"returns-2":("rowFrom",r2)})
slot_reader("number_at","r .number"); slot_reader("sites_at","r .sites"); slot_reader("last_at","r .last")
slot_reader("is_free","isFree (r .state)","free-cell"); slot_reader("is_active","isActive (r .state)","active-cell"); slot_reader("is_committed","isCommitted (r .state)","committed-cell")
def part_reader(name, field):
    uses=[PATH,"native.Mathlib.Omega.{arith}","Rattle·method.specs.declared.Part.{Part}",ROW,"Rattle·method.specs.Records.{partAt}",TL+"{row-past, part-at, part-past}"]
    a="let a = c @args in "
    PROOFS[name]=dict(uses=uses,answers={
     "returns":a+f"sym (ap (λ (r : Row). partAt r (a .s) .{field}) (row-past (a .c .now) (a .i) (c @@Then1 .if1 .taken)))",
     "returns-2":a+f"sym (ap (λ (p : Part). p .{field}) (part-past (a .c .now) (a .i) (a .s) (omega (arith, c @@Else1 .if1 .left)) (c @@Then2 .if2 .taken)))",
     "returns-3":a+f"sym (ap (λ (p : Part). p .{field}) (part-at (a .c .now) (a .i) (a .s) (omega (arith, c @@Else1 .if1 .left)) (omega (arith, c @@Else2 .if2 .left))))"})
part_reader("base_at","base"); part_reader("ticket_at","ticket"); part_reader("stage_at","stage")
PROOFS["stage_at"]["answers"]["returns-3"]=PROOFS["stage_at"]["answers"]["returns-3"].replace("sym (ap","c @stage-of .ensures ∙ sym (ap")
PROOFS["high_at"]=dict(uses=[PATH,"native.Mathlib.Omega.{arith}",TL+"{high-at, high-past}"],answers={
 "returns":"let a = c @args in sym (high-past (a .c .now) (a .s) (c .if1 .taken))",
 "returns-2":"let a = c @args in sym (high-at (a .c .now) (a .s) (omega (arith, c @@Else1 .if1 .left)))"})
PROOFS["last"]=dict(uses=[PATH,"Rattle·cells·specs.specs.Layout.{tableFrom}"],answers={"returns":("tableFrom","refl")})
PROOFS["sites"]=dict(uses=[PATH,"Rattle·cells·specs.specs.Layout.{tableFrom}"],answers={"returns":("tableFrom","refl")})
PU="Rattle·cells·specs.specs.Puts."
PROOFS["put_last"]=dict(uses=[PATH,PU+"{putLast}"],answers={"returns":("putLast","refl")})
PROOFS["put_sites"]=dict(uses=[PATH,PU+"{putSites}"],answers={"returns":("putSites","refl")})
T="borrow.Author.Tests.{lt-ltb, le-ltb, eq-eqb, ne-eqb}"
PROOFS["put_high"]=dict(uses=[PATH,"native.Mathlib.Omega.{arith}",T,PU+"{putHigh}"],answers={
 "returns":("putHigh","let a = c @args in rw (le-ltb (a .s) 8 (c .if1 .taken))"),
 "returns-2":("putHigh","let a = c @args in rw (lt-ltb (a .s) 8 (omega (arith, c @@Else1 .if1 .left)))")})
PROOFS["put_part"]=dict(uses=[PATH,"mathlib.Core.List.{List, [], _∷_}","native.Mathlib.Omega.{arith}","native.Mathlib.Numerals.{add-one, add-two}","lib.ListN.{length}",T,"Rattle·cells·specs.specs.Layout.{partPlace}",PU+"{partCells, putPart}"],answers={
 "returns":("putPart","let a = c @args in rw (le-ltb (a .s) 8 (c .if1 .taken))"),
 "returns-2":("putPart","let a = c @args in rw (lt-ltb (a .s) 8 (omega (arith, c @@Else1 .if1 .left)), le-ltb (a .i) 32 (c .if2 .taken))"),
 "returns-3":("putPart","let a = c @args in rw (lt-ltb (a .s) 8 (omega (arith, c @@Else1 .if1 .left)), lt-ltb (a .i) 32 (omega (arith, c @@Else2 .if2 .left)), c @stage-cell .ensures, add-one, add-two)")})
PROOFS["put_committed"]=dict(uses=[PATH,"native.Mathlib.Omega.{arith}","native.Mathlib.Numerals.{add-one, add-two, add-three}",T,PU+"{putCommitted}"],answers={
 "returns":("putCommitted","let a = c @args in rw (le-ltb (a .i) 32 (c .if1 .taken))"),
 "returns-2":("putCommitted","let a = c @args in rw (lt-ltb (a .i) 32 (omega (arith, c @@Else1 .if1 .left)))")})
PROOFS["stage_of"]=dict(uses=[PATH,T],answers={
 "returns":"sym (rw (eq-eqb _ 0 (c .if1 .taken)))",
 "returns-2":"sym (rw (ne-eqb _ 0 (c @@Else1 .if1 .left), eq-eqb _ 1 (c .if2 .taken)))",
 "returns-3":"sym (rw (ne-eqb _ 0 (c @@Else1 .if1 .left), ne-eqb _ 1 (c .if2 .left)))"})
PROOFS["clear"]=dict(uses=[PATH,PU+"{zeros}"],answers={"returns":("zeros","refl")})
PROOFS["free_slot"]=dict(head="`cells::free_slot` meets its contract: k zeros are written after k turns.",uses=[PATH,"mathlib.Core.List.{List, [], _∷_}","Prim.Native.Nat.{_≤_, _-_}","native.Mathlib.Omega.{arith}","native.Mathlib.Numerals.{add-one}","lib.ListN.{replicate, length-replicate}","lib.Seq.{sets}","Rattle·method.specs.Records.{freeRow}",T,PU+"{partsCells, putRow}","Rattle·cells·specs.specs.Layout.{rowPlace}","Rattle·cells·proofs.proofs.CellLaws.{sets-more, zeros-more}"],
 inv=("c₀ i at k₀ c k","(k ≤ 28) × (c ≡ sets c₀ at (replicate k 0))","28 - k"),
 answers={"loop-holds":"(search needs, refl)",
 "returns":("putRow","let a = c @args in rw (le-ltb (a .i) 32 (c .if1 .taken))"),
 "loop-again":"let l = c @loop in let a = c @args in (search needs, rw (l .inv .1, add-one) (sets-more (replicate (l .k) 0) (0 ∷ []) (a .c .now) _ _ (simp length-replicate) ∙ ap (sets (a .c .now) _) (zeros-more (l .k))))",
 "returns-2":("putRow partsCells","let l = c @loop in let e : l .k ≡ 28 = omega arith in rw (lt-ltb (c @args .i) 32 (omega (arith, c @@Else1 .if1 .left))) (rw e at (l .inv .1))")})
PROOFS["put_row"]=dict(head="`cells::put_row` meets its contract: four cells, and then the parts of s sites after s turns.",uses=[PATH,"mathlib.Core.List.{List, [], _∷_, _++_}","Prim.Native.Nat.{ℕ, suc, _≤_, _<_, _-_, _+_, _*_}","native.Mathlib.Omega.{arith}","native.Mathlib.Numerals.{add-one, add-two, add-three, add-four}","lib.ListN.{length, take, getD}","lib.Seq.{sets, take-all, length-take-le}",T,"Rattle·method.specs.Records.{noPart}","Rattle·method.proofs.SearchLaws.{unmapped}","Rattle·cells·specs.specs.Layout.{rowPlace, partPlace, stateCell}",PU+"{partCells, partsCells, rowCells, putPart, putRow}","Rattle·cells·proofs.proofs.CellLaws.{sets-more}",TL+"{length-parts, parts-more}"],
 inv=("c₀ i r at s₀ c s","(s ≤ 8) × (c ≡ sets c₀ (at + 4) (partsCells (take s (r .parts)))) × (length (r .parts) ≡ 8)","8 - s"),
 answers={
 "returns":("putRow","let a = c @args in rw (le-ltb (a .i) 32 (c .if1 .taken))"),
 "loop-holds":("partsCells","(search needs, refl, search (needs, unmapped))"),
 "loop-again":("putPart","let l = c @loop in let ps = c @args .t3 .parts in let h : l .s < length ps = omega (arith, l .inv .2) in let n : length (partsCells (take (l .s) ps)) ≡ 3 * l .s = length-parts (take (l .s) ps) ∙ ap (λ (m : ℕ). 3 * m) (length-take-le (l .s) ps (omega arith)) in let w : l .s < 8 = omega (arith, h, l .inv .2) in (search needs, c @put-part .ensures ∙ rw (lt-ltb (l .s) 8 w, lt-ltb (c @args .i) 32 (omega (arith, c @@Else1 .if1 .left)), l .inv .1, add-one (l .s)) (sets-more (partsCells (take (l .s) ps)) (partCells (getD ps (l .s) noPart)) _ _ _ (omega arith) ∙ ap (sets _ _) (parts-more ps (l .s) h)), l .inv .2)"),
 "returns-2":("putRow","let l = c @loop in let ps = c @args .t3 .parts in let h : length ps ≤ l .s = omega (arith, l .inv .2) in rw (lt-ltb (c @args .i) 32 (omega (arith, c @@Else1 .if1 .left))) (l .inv .1 ∙ rw (take-all (l .s) ps h, c @state-cell .ensures, add-one, add-two, add-three, add-four))")})
