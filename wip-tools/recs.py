#!/usr/bin/env python3
"""recs.py CRATE FN: records and needs of a function"""
import sys,runpy,re,os
sys.argv=[sys.argv[0]]+sys.argv[1:]
crate,fn=sys.argv[1:3]
src=open(os.path.join(os.path.dirname(os.path.abspath(__file__)),'go.py')).read()
a=src.index('def lts_info'); b=src.index('def find(')
ns={'re':re,'os':os,'crate':crate}
exec(src[a:b],ns)
i=ns['lts_info'](fn)
for k,v in i['recs'].items():
    if '·own' in k: print('   ',k,list(v))
    else: print(k,'<-',v.get('before'),[f for f in v if f!='before'])
for n in i['order']:
    if n.startswith('Need'): print(n,i['needs'].get(n))
