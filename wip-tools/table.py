import os,shutil
w=os.path.join(os.getcwd(),'crates')+'/'
CALLS=[
 ("open_with","first: Number, floors: &[u32]","first, floors","openings","(openWith (first .0) (now (floors .entry)))",""),
 ("begin","sites: u8","sites","beginnings","(beginCall sites)","// `sites` is a set of sites, site 0 its lowest bit.\n"),
 ("report_ticket","n: Number, s: u8, k: Ticket","n, s, k","reports","(reportTicket (n .0) s (k .0))",""),
 ("report_prepared","n: Number, s: u8","n, s","reports","(reportPrepared (n .0) s)",""),
 ("abort","n: Number","n","endings","(abortCall (n .0))",""),
 ("decide","n: Number","n","decisions","(decideCall (n .0))",""),
 ("forget","n: Number","n","endings","(forgetCall (n .0))",""),
 ("sweep","","","sweeps","sweepCall",""),
]
callUse="ghost use Rattle·method.specs.Calls.Call.{openWith, begin as beginCall, reportTicket, reportPrepared, abort as abortCall, decide as decideCall, forget as forgetCall, sweep as sweepCall};\n"
def join(a,b): return a+(', '+b if b else '')
# table/plain
s='''// The calls by value on bare cells: cells in, cells out. RULES, Calls.
ghost use mathlib.Core.Path.{_≡_};
'''+callUse+'''ghost use Rattle·method.specs.Effects.{step};
ghost use Rattle·cells.specs.Layout.{tableFrom};
ghost use Rattle·cells.specs.After.{cellsAfter};
use cells::Cells;
use method::Answer;
use method::Number;
use method::Ticket;

// What a call answers, and the cells that it leaves.
pub struct Left {
    pub cells: Cells,
    pub answer: Answer,
}
'''
for n,p,a,m,c,com in CALLS:
    s+=f'''
{com}pub fn {n}({join("c: Cells",p)}) -> Left
    ensures answer {{ λ r. ⌜ r .answer ≡ step (tableFrom c) {c} .answer ⌝ }}
    ensures cells {{ λ r. ⌜ r .cells ≡ cellsAfter c {c} ⌝ }}
    ensures table {{ λ r. ⌜ tableFrom (r .cells) ≡ step (tableFrom c) {c} .table ⌝ }}
{{
    let mut d = c;
    let a = {m}::{n}({join("&mut d",a)});
    Left {{
        cells: d,
        answer: a,
    }}
}}
'''
open(w+'table/src/plain.rt','w').write(s)
s='''// The table that a caller holds. Its one field is private: no other program can make a table, or change one, but by these
// calls. What each call does is defined in crate `method`. RULES, The table; Calls.
ghost use mathlib.Core.Path.{_≡_};
ghost use Prim.Native.Nat.{_*_};
ghost use lib.ListN.{length};
ghost use Rattle·method.specs.Records.{closed as closedTable};
ghost use Rattle·method.specs.Slots.{keptFlat};
ghost use Rattle·method.specs.Conditions.{isClosed};
'''+callUse+'''ghost use Rattle·method.specs.Effects.{step};
ghost use Rattle·cells.specs.Puts.{zeros};
ghost use Rattle·slots.specs.Used.{usedBy};
ghost use Rattle·kept.specs.Packed.{packedOf};
ghost use Rattle·table·specs.specs.Shut.{shutCells, held, answerTo, tableAfter};
use cells::CELLS;
use cells::Cells;
use kept::packed::Kept;
use method::Answer;
use method::Number;
use method::Ticket;

pub mod plain;

pub struct Table {
    cells: Cells,
}

pub struct Answered {
    pub table: Table,
    pub answer: Answer,
}

// The table to start from: it knows no site, and refuses all calls but open.
pub fn closed() -> Table
    ensures answer { λ r. ⌜ r ≡ shutCells zeros ⌝ }
    ensures held { λ r. ⌜ held r ≡ closedTable ⌝ }
{
    let c: Cells = [0; CELLS];
    Table { cells: c }
}
'''
for n,p,a,m,c,com in CALLS:
    s+=f'''
{com}pub fn {n}({join("t: Table",p)}) -> Answered
    ensures answer {{ λ r. ⌜ r .answer ≡ answerTo t {c} ⌝ }}
    ensures table {{ λ r. ⌜ r .table ≡ tableAfter t {c} ⌝ }}
    ensures held {{ λ r. ⌜ held (r .table) ≡ step (held t) {c} .table ⌝ }}
{{
    let c = t.cells;
    let l = plain::{n}({join("c",a)});
    let d = l.cells;
    let a = l.answer;
    Answered {{
        table: Table {{ cells: d }},
        answer: a,
    }}
}}
'''
s+='''
// Has it not been opened yet?
pub fn is_closed(t: Table) -> bool
    ensures answer { λ r. ⌜ r ≡ isClosed (held t) ⌝ }
{
    let c = t.cells;
    cells::sites(&c) == 0
}

// The kept rows as a ticket table, by slot.
pub fn kept_rows(t: Table) -> Kept
    ensures answer { λ r. ⌜ r ≡ packedOf (held t) ⌝ }
    ensures whole { λ r. ⌜ length (keptFlat (held t)) ≡ 9 * r .count ⌝ }
{
    let c = t.cells;
    kept::packed::rows(&c)
}

// How many sites a transaction uses: 0 for a number that the table does not know.
pub fn sites_used(t: Table, n: Number) -> u32
    ensures answer { λ r. ⌜ r ≡ usedBy (held t) (n .0) ⌝ }
{
    let c = t.cells;
    slots::sites_used(&c, n)
}
'''
open(w+'table/src/lib.rt','w').write(s)
open(w+'table/specs/Shut.antt','w').write('''-- The table that a caller holds: its cells, the table that they are, and what a call on it answers and leaves.
use mathlib.Core.List.{List}
use Prim.Native.Nat.{ℕ}
use Rattle·method.specs.declared.Table as method
use Rattle·method.specs.declared.Answer.{Answer}
use Rattle·method.specs.Calls.{Call}
use Rattle·method.specs.Effects.{step}
use Rattle·cells.specs.Layout.{tableFrom}
use Rattle·cells.specs.After.{cellsAfter}
use Rattle·table·specs.specs.declared.Table.{Table}

abbrev pub shutCells : List ℕ → Table
shutCells c = record { cells = c }

abbrev pub held : Table → method.Table
held t = tableFrom (t .cells)

abbrev pub answerTo : Table → Call → Answer
answerTo t x = step (held t) x .answer

abbrev pub tableAfter : Table → Call → Table
tableAfter t x = shutCells (cellsAfter (t .cells) x)
''')
shutil.rmtree(w+'table/proofs'); os.makedirs(w+'table/proofs')
open(w+'table/proofs/CallLaws.antt','w').write('''-- What a call by value gives, from what the call on lent cells gives. Assumes nothing.
use mathlib.Core.Path.{_≡_, ap, _∙_}
use mathlib.Core.List.{List}
use Prim.Native.Nat.{ℕ}
use lib.ListN.{length}
use Rattle·method.specs.declared.Answer.{Answer}
use Rattle·method.specs.Calls.{Call}
use Rattle·method.specs.Effects.{step}
use Rattle·cells.specs.Layout.{tableFrom}
use Rattle·cells.specs.After.{Within, cellsAfter}
use Rattle·cells.proofs.AfterLaws.{joined}
use Rattle·table·specs.specs.declared.Table.{Table}
use Rattle·table·specs.specs.Shut.{shutCells, held, answerTo, tableAfter}

-- on bare cells
pub left-by : (c d : List ℕ) (x : Call) (a : Answer) → length c ≡ 906 → Within x → (a ≡ step (tableFrom c) x .answer) × (d ≡ cellsAfter c x)
    → (a ≡ step (tableFrom c) x .answer) × ((d ≡ cellsAfter c x) × (tableFrom d ≡ step (tableFrom c) x .table))
left-by c d x a l w e = (e .0, (e .1, ap tableFrom (e .1) ∙ joined c l x w))

-- on a table
pub shut-by : (t : Table) (d : List ℕ) (x : Call) (a : Answer) → (a ≡ answerTo t x) × ((d ≡ cellsAfter (t .cells) x) × (tableFrom d ≡ step (held t) x .table))
    → (a ≡ answerTo t x) × ((shutCells d ≡ tableAfter t x) × (held (shutCells d) ≡ step (held t) x .table))
shut-by t d x a e = (e .0, (ap shutCells (e .1 .0), e .1 .1))
''')
open(w+'table/proofs/Lib.antt','w').write('pub mod CallLaws\n')
# lent
s='''// The calls on bare cells that are lent: a copy goes to the call by value, and what it left is stored back. The service keeps its
// cells for its whole run and lends them to these. RULES, Calls.
ghost use mathlib.Core.Path.{_≡_};
'''+callUse+'''ghost use Rattle·method.specs.Effects.{step};
ghost use Rattle·cells.specs.Layout.{tableFrom};
ghost use Rattle·cells.specs.After.{cellsAfter};
use cells::Cells;
use method::Answer;
use method::Number;
use method::Ticket;
'''
for n,p,a,m,c,com in CALLS:
    s+=f'''
{com}pub fn {n}({join("c: &mut Cells",p)}) -> Answer
    ensures answer {{ λ r. ⌜ r ≡ step (tableFrom (now (c .entry))) {c} .answer ⌝ }}
    ensures cells {{ λ r. ⌜ now (c .exit) ≡ cellsAfter (now (c .entry)) {c} ⌝ }}
    ensures table {{ λ r. ⌜ tableFrom (now (c .exit)) ≡ step (tableFrom (now (c .entry))) {c} .table ⌝ }}
{{
    let r = table::plain::{n}({join("*c",a)});
    let d = r.cells;
    let a = r.answer;
    *c = d;
    a
}}
'''
open(w+'lent/src/plain.rt','w').write(s)
s='''// The calls on a table that is lent: a copy goes to the call of crate `table`, and what it left is stored back. RULES, Calls.
ghost use mathlib.Core.Path.{_≡_};
'''+callUse+'''ghost use Rattle·method.specs.Effects.{step};
ghost use Rattle·table.specs.Shut.{held, answerTo, tableAfter};
use method::Answer;
use method::Number;
use method::Ticket;
use table::Table;

pub mod plain;
'''
for n,p,a,m,c,com in CALLS:
    s+=f'''
{com}pub fn {n}({join("t: &mut Table",p)}) -> Answer
    ensures answer {{ λ r. ⌜ r ≡ answerTo (now (t .entry)) {c} ⌝ }}
    ensures table {{ λ r. ⌜ now (t .exit) ≡ tableAfter (now (t .entry)) {c} ⌝ }}
    ensures held {{ λ r. ⌜ held (now (t .exit)) ≡ step (held (now (t .entry))) {c} .table ⌝ }}
{{
    let r = table::{n}({join("*t",a)});
    *t = r.table;
    r.answer
}}
'''
open(w+'lent/src/lib.rt','w').write(s)
for n in [c[0] for c in CALLS]:
    d=w+f'lent/proofs/lend_{n}'
    if os.path.exists(d): shutil.rmtree(d)
