#!/usr/bin/env python3
"""drops imports that a file does not use"""
import re,glob,sys
n=0
for f in sum([glob.glob(f'crates/*/{d}/**/*.antt',recursive=True) for d in ('proofs','specs')],[])+glob.glob('crates/*/src/*.rt'):
    if '/thin/' in f: continue
    t=open(f,encoding='utf-8').read()
    lines=t.split('\n')
    body='\n'.join(l for l in lines if not re.match(r'\s*(ghost )?use ',l) and not re.match(r'\s*(--|//)',l))
    body=re.sub(r'--.*','',body)
    for e in glob.glob(f.split('/')[0]+'/'+f.split('/')[1]+'/must-fail/*.edit'):
        x=open(e,encoding='utf-8').read()
        if 'file: '+'/'.join(f.split('/')[2:])+'\n' in x: body+='\n'+re.search(r'^new: (.*)$',x,re.M).group(1)
    toks=set(re.findall(r"[^\s(){}\[\],;`]+",body)); toks|=set(x for w in list(toks) for x in w.split('.'))
    out=[]; changed=False
    for l in lines:
        m=re.match(r'^(\s*(?:ghost )?use [^\s{;]+\.\{)([^}]*)(\};?)$',l)
        if m and not l.lstrip().startswith('use ') and f.endswith('.rt') and 'ghost' not in l: out.append(l); continue
        if m:
            keep=[]
            for x in m.group(2).split(','):
                x=x.strip()
                if not x: continue
                a=x.split(' as ')[-1].strip().split('.')[-1]
                if a=='[]': ok='[]' in body
                elif '_' in a and not re.match(r'^[a-z]+$',a):
                    parts=[p for p in a.split('_') if p]
                    ok=all(p in toks for p in parts) or a in body
                else: ok=a in toks
                if a in('arith','needs'): ok=a in toks
                if ok: keep.append(x)
                else: changed=True; n+=1
            if keep: out.append(m.group(1)+', '.join(keep)+m.group(3))
            continue
        out.append(l)
    if changed: open(f,'w',encoding='utf-8').write('\n'.join(out))
print(n,'dropped')
