#!/usr/bin/env python3
import glob,os,re
for e in sorted(glob.glob('crates/*/must-fail/*.edit')):
    t=open(e,encoding='utf-8').read()
    crate=e.split('/')[1]
    f=re.search(r'^file: (.*)$',t,re.M).group(1); old=re.search(r'^old: (.*)$',t,re.M)
    src=open(f'crates/{crate}/{f}',encoding='utf-8').read() if os.path.exists(f'crates/{crate}/{f}') else ''
    n=src.count(old.group(1)) if old else 0
    if n!=1: print(e,'found',n,'|',old.group(1) if old else None,'|',re.search(r'^new: (.*)$',t,re.M).group(1))
