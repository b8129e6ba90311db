import os,sys
sys.path.insert(0,os.path.dirname(os.path.abspath(__file__)))
PATH="mathlib.Core.Path.{_≡_, refl, sym, ap, _∙_}"
calls={"open_with":("openWith","openWith (c @args .first .0) (c @args .floors .now)"),"begin":("begin","begin (c @args .sites)"),"report_ticket":("reportTicket","reportTicket (c @args .n .0) (c @args .s) (c @args .k .0)"),"report_prepared":("reportPrepared","reportPrepared (c @args .n .0) (c @args .s)"),"abort":("abort","abort (c @args .n .0)"),"decide":("decide","decide (c @args .n .0)"),"forget":("forget","forget (c @args .n .0)"),"sweep":("sweep","sweep")}
PROOFS={}
for f,(imp,call) in calls.items():
    fl=f.replace('_','-')
    within="search needs" if f=="begin" else "tt"
    PROOFS["plain/"+f]=dict(uses=[PATH,"lib.ListN.{length}",f"Rattle·method.specs.Calls.Call.{{{imp}}}","Rattle·table·proofs.proofs.CallLaws.{left-by}"],
      answers={"returns":f"left-by _ _ ({call}) _ (search needs) {'('+within+')' if within!='tt' else within} (c @{fl} .ensures)"})
    PROOFS[f]=dict(uses=[PATH,f"Rattle·method.specs.Calls.Call.{{{imp}}}","Rattle·table·proofs.proofs.CallLaws.{shut-by}"],
      answers={"returns":f"shut-by _ _ ({call}) _ (c @{fl} .ensures)"})
PROOFS["closed"]=dict(uses=[PATH,"Rattle·cells.specs.Puts.{zeros}","Rattle·cells.proofs.HeadLaws.{table-of-zeros}"],answers={"returns":("zeros","(refl, table-of-zeros)")})
PROOFS["is_closed"]=dict(uses=[PATH,"Prim.Native.Nat.{ℕ}","lib.Dec.{eqb}"],answers={"returns":"ap (λ (x : ℕ). eqb x 0) (c @sites .ensures)"})
