#!/usr/bin/env python3
"""go.py CRATE [SPEC.py] [MAX]: goals, fill proof files from SPEC, fmt, dev; short output.  Run in the repo root."""
import sys, os, re, subprocess, time, runpy
crate = sys.argv[1]
spec = next((a for a in sys.argv[2:] if a.endswith('.py')), None)
mx = int(next((a for a in sys.argv[2:] if a.isdigit()), '6000'))
root = subprocess.run(["git","rev-parse","--show-toplevel"],capture_output=True,text=True).stdout.strip()
os.chdir(root)
def kap(nm): return ' κs' if re.search(r'-requires(-\d+)?$',nm) else ''
def run(*a):
    return subprocess.run(a,capture_output=True,text=True)
def lts_info(path):
    """records: name -> dict(field->type or None), needs: name -> (ctype, kappas)"""
    base=f"target/goals/{crate}/Rattle·{crate}·proofs/proofs/{path}"
    if not os.path.exists(base+"/Lts.antt"): return None
    t=open(base+"/Lts.antt",encoding='utf-8').read()
    lines=t.split('\n')
    recs={}; needs={}
    i=0
    while i<len(lines):
        m=re.match(r'\s*pub record (\S+)(?: .*)? : Type \d+ where',lines[i])
        if m:
            ind=len(lines[i])-len(lines[i].lstrip()); name=m.group(1); f={}; i+=1
            while i<len(lines) and (not lines[i].strip() or len(lines[i])-len(lines[i].lstrip())>ind):
                g=re.match(r'\s*pub (\S+) : (\S+)?',lines[i])
                if g and len(lines[i])-len(lines[i].lstrip())==ind+2: f[g.group(1)]=g.group(2)
                i+=1
            recs[name]=f; continue
        m=re.match(r'\s*abbrev pub (Need-\S+) : Type',lines[i])
        if m:
            j=i+1; txt=''
            while j<len(lines) and lines[j].strip(): txt+=lines[j]+' '; j+=1
            g=re.search(r'\(c : ([^)]*)\)\s*→\s*(\(κs)?',txt)
            needs[m.group(1)]=(g.group(1).split()[0] if g else None, bool(g and g.group(2)))
            i=j; continue
        i+=1
    if not os.path.exists(base+'/Tie.antt') or 'pub spec :' not in open(base+'/Tie.antt',encoding='utf-8').read(): return None
    tie=open(base+"/Tie.antt",encoding='utf-8').read()
    sp=tie[tie.index('pub spec :'):]
    sp=sp[:sp.index('Lts.Closed')]
    order=re.findall(r'\((\S+) : (Need-\S+|InvT-\S+|MeasureT-\S+)',sp)
    inv = [b for a,b in order if b.startswith(('InvT','Measure'))]
    return dict(recs=recs,needs=needs,order=[b.rstrip(')') for a,b in order],loop=bool(inv))
def find(recs,start,field):
    """path from record start to field; 2field: the second such"""
    cur=start; p=''; left=1
    m=re.match(r'(\d)(.*)',field)
    if m: left=int(m.group(1)); field=m.group(2)
    while cur in recs:
        f=recs[cur]
        if field in f or '«'+field+'»' in f:
            left-=1
            if left==0: return p, cur
        if 'before' not in f: return None,None
        p+=' .before'; cur=f['before']
    return None,None
def findrec(recs,start,rec):
    cur=start;p=''
    while cur in recs:
        if cur==rec: return p
        if 'before' not in recs[cur]: return None
        p+=' .before'; cur=recs[cur]['before']
    return None
def resolve(text,types,info,where):
    recs=info['recs']
    types=dict(types)
    def sub(m):
        v,at,f=m.group(1),m.group(2),m.group(3)
        t=types.get(v)
        if t is None: print(f'?? {where}: type of {v} unknown for {m.group(0)}'); return m.group(0)
        if at=='@@':
            p=findrec(recs,t,f)
            if p is None: print(f'?? {where}: no record {f} before {t}'); return m.group(0)
            return v+p
        p,c=find(recs,t,f)
        if p is None: print(f'?? {where}: no field {f} from {t}'); return m.group(0)
        return f'{v}{p} .{f.lstrip("23456789")}'
    out=[]
    for line in text.split('\n'):
        # typed parameters
        for m in re.finditer(r'\((\w+) : tie\.(\S+?)(?: Inv-loop μ-loop)?\)',line): types[m.group(1)]=m.group(2)
        # let bindings, one after the other
        pos=0; res=''
        for m in re.finditer(r"let (\w+) = (\w+) @@(\S+) in",line): types[m.group(1)]=m.group(3)
        line=re.sub(r"\b(\w+) (@@?)([\w'·-]+)",sub,line)
        out.append(line)
    return '\n'.join(out)
if spec:
    import glob
    stamp=f'target/goals/{crate}.stamp'
    srcs=glob.glob(f'crates/{crate}/src/**',recursive=True)+glob.glob(f'crates/{crate}/specs/**',recursive=True)
    S0=runpy.run_path(spec)['PROOFS']
    fresh=os.path.exists(stamp) and all(os.path.getmtime(f)<os.path.getmtime(stamp) for f in srcs if os.path.exists(f)) and all(lts_info(k) for k in S0)
    class R: pass
    if fresh: r=R(); r.stdout='generated='; r.stderr=''
    else:
        r=run('rt','goals',crate)
        open(stamp,'w').close()
    if 'generated=' not in r.stdout+r.stderr:
        t=(r.stdout+r.stderr)
        print('GOALS FAILED'); print(t[-mx:])
    S=runpy.run_path(spec)['PROOFS']
    for path,d in S.items():
        info=lts_info(path)
        if info is None: print('no goals for',path); continue
        fn=path.split('/')[-1]; mod='.'.join(path.split('/'))
        L='Inv-loop μ-loop' if info['loop'] else ''
        out=[]
        out.append('-- '+d.get('head',f"`{crate}::{path.replace('/','::')}` meets its contract.")+' Assumes nothing.')
        uses=list(d.get('uses',[]))
        if d.get('omit_needs') is None: uses.append('borrow.Author.Needs.{needs}')
        for u in uses: out.append('use '+u)
        out.append(f'use Rattle·{crate}·proofs.proofs.{mod}.Statement.{{statement}}')
        out.append(f'use Rattle·{crate}·proofs.proofs.{mod}.Tie as tie')
        out.append('')
        if d.get('pre'): out.append(d['pre'].rstrip()); out.append('')
        if info['loop']:
            names,inv,mu=d['inv']
            out+=[f'abbrev Inv-loop : tie.InvT-loop',f'Inv-loop {names} = {inv}','',f'abbrev μ-loop : tie.MeasureT-loop',f'μ-loop {names} = {mu}','']
        if d.get('before'): out.append(resolve(d['before'],{},info,path).rstrip()); out.append('')
        done=[]; mids=d.get('mid',{})
        for nd in info['order']:
            if not nd.startswith('Need-'): continue
            nm=nd[5:]
            ct,ks=info['needs'].get(nd,(None,False))
            if nm in mids: out.append(resolve(mids[nm],{},info,path).rstrip()); out.append('')
            a=d.get('answers',{}).get(nm)
            unf=None
            if isinstance(a,tuple): unf,a=a
            if a is None: a='search needs'
            out.append(f'{nm} : tie.{nd} {L}'.rstrip())
            if unf: out.append(f'unfolding {unf}')
            body=resolve(a,{'c':ct},info,path+'.'+nm)
            if body.startswith('λ!'): out.append(f'{nm} {body[2:]}')
            else: out.append(f"{nm} c{kap(nm)} = {body}")
            out.append('')
            done.append(nm)
        for k in d.get('answers',{}):
            if k not in done: print(f'?? {path}: answer for {k} not wanted; wanted: {done}')
        out.append(f'pub {fn.replace("_","-")}-spec : {{M : Type 1}} → statement M')
        out.append(f'{fn.replace("_","-")}-spec = tie.close (tie.spec {L} {" ".join(done)})'.replace('  ',' '))
        p=f'crates/{crate}/proofs/{path}/Proof.antt'
        os.makedirs(os.path.dirname(p),exist_ok=True)
        open(p,'w',encoding='utf-8').write('\n'.join(out)+'\n')
run('rt','fmt')
t0=time.time()
env=dict(os.environ); env['RT_CUT']='0'
r=subprocess.run(['rt','dev',crate,'--allow-holes'],capture_output=True,text=True,env=env)
txt=r.stdout+r.stderr
os.makedirs('target',exist_ok=True); open('target/dev.out','w').write(txt)
# short output
lines=txt.split('\n'); out=[]; skip=False
for l in lines:
    if l.startswith('note:') or l.startswith('help:'): skip=True; continue
    if skip and (l.startswith('  ') or not l.strip()): continue
    skip=False
    if re.match(r'(library|logic|crate) ',l) or l.startswith('logic=') or 'proved (' in l or l.startswith('rt: '): continue
    if l.startswith('fn ') and l.endswith((': proved',': no holes')): continue
    if ': note:' in l or 'was not admitted (it has holes' in l: skip=True; continue
    if re.match(r'    \(computed from:',l): skip=True; continue
    if 'Every way was tried' in l or l.startswith('  tried:') or l.startswith('  ⊢ ?'): continue
    out.append(l[:420])
res='\n'.join(out)
print(res[:mx])
print(f'dev {crate}: exit {r.returncode}, {time.time()-t0:.0f} s, {len(res)} chars')
