PATH="mathlib.Core.Path.{_≡_, refl, sym, ap, _∙_}"
T="borrow.Author.Tests.{eq-eqb, ne-eqb}"
PROOFS={"is_rival":dict(uses=[PATH,T,"Rattle·method.specs.declared.Number.{Number}"],answers={
 "returns":"sym (rw (sym (c @is-free .ensures) ∙ c .if1 .taken))",
 "returns-2":"let n = ap (λ (m : Number). m .0) (sym (c @number-at .ensures)) in sym (rw (sym (c @is-free .ensures) ∙ c @@Else1 .if1 .left, n ∙ c .if2 .taken, eq-eqb (c @args .n .0) (c @args .n .0) refl))",
 "returns-3":"let n = ap (λ (m : Number). m .0) (sym (c @number-at .ensures)) in rw (c @ticket-at .ensures, sym (c @is-free .ensures) ∙ c @@Else1 .if1 .left, n, ne-eqb (c @number-at .result .0) (c @args .n .0) (c @@Else2 .if2 .left))"})}
