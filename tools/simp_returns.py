#!/usr/bin/env python3
# Of the kit before the port (docs/PORT.md), in which a proof was one file Proof.antt and `rt goals` wrote its Lts; kept as it was. Today the
# kit tries such a `simp` itself, and prints the facts that are known at each goal that is left (`rt check --allow-holes`).
# Fills `?` at the `returns` needs of proof files with a `simp` over the facts on the way there, read off the generated Lts.
# In the repository's root, after `rt goals CRATE`:  simp_returns.py CRATE module/function ..   (as transfer/after_sending)
# TESTS=name,name .. names the callees whose results are only tested: their `ensures` is used from right to left.
# MATCHED=name,name .. names the locals that a `match` goes into; PAIRS=name,name .. the callees whose `ensures` is a pair with the equation first.
import os,re,sys
crate=sys.argv[1]
def listed(name): return set(filter(None,os.environ.get(name,'').split(',')))
TESTS,PAIRS=listed('TESTS'),listed('PAIRS')
MATCHED={'phase','access','next','self','a','r','d','p','e','k'}|listed('MATCHED')
def parse(fn):
    L=open('target/goals/'+crate+'/Rattle·'+crate+'·proofs/proofs/'+fn+'/Lts.antt').read().split('\n')
    recs={}; needs={}; cur=None
    for i,l in enumerate(L):
        m=re.match(r'\s+pub record (\S+) : Type 0 where',l)
        if m: cur=m.group(1); recs[cur]={}; continue
        m=re.match(r'\s+(Need-\S+) =(.*)',l)
        if m:
            t=m.group(2)+' '+L[i+1]
            x=re.search(r'\(c : (\S+?)\)',t)
            if x: needs[m.group(1)]=x.group(1)
        m=re.match(r'\s+pub (\S+) : ?(.*)',l)
        if m and cur:
            t=m.group(2)
            j=i+1
            while j<len(L) and j<i+40 and not re.match(r'\s+(pub |Need-|\S+ : )',L[j]) and L[j].strip(): t+=' '+L[j].strip(); j+=1
            recs[cur][m.group(1)]=t
    return recs,needs
def facts(recs,rec):
    path='c'; out=[]
    while rec and rec in recs:
        r=recs[rec]
        for f,t in r.items():
            if f=='before' or not t.strip().startswith(rec+'·own') and '·own' not in t: continue
            own=recs.get(t.split()[0],{})
            if 'given' in own and f.startswith('enum'): out.append((f,path+' .%s .given .1'%f))
            elif 'given' in own and re.sub(r'\d+$','',f) in MATCHED: out.append((f,path+' .%s .given .1'%f))
            elif 'taken' in own or 'left' in own:
                k='taken' if 'taken' in own else 'left'
                t2=own[k]
                if 'Bool' in t2:
                    out.append((f,'%s .%s .%s'%(path,f,k)))
                    path+=' .before'; rec=r.get('before','').split(' ')[0] if 'before' in r else None
                    break
                if k=='taken': lem='lt-ltb' if '_<_' in t2[:40] else 'le-leb' if '_≤_' in t2[:40] else 'eq-eqb'
                else: lem='le-ltb' if '_≤_' in t2[:40] else 'lt-leb' if '_<_' in t2[:40] else 'ne-eqb'
                out.append((f,'%s _ _ (%s .%s .%s)'%(lem,path,f,k)))
            elif 'gave' in str(own) or 'ensures' in own or f not in('args','good','fits','pre'):
                if 'given' in own or 'keys' in str(own) or f=='match' or f.startswith('row-known'): continue
                g=re.sub(r'\d+$','',f)
                out.append((f,('← ' if g in TESTS else '')+path+' .%s .ensures'%f+(' .0' if g in PAIRS else '')))
        else:
            path+=' .before'; rec=r.get('before','').split(' ')[0] if 'before' in r else None
    return out
for fn in sys.argv[2:]:
    recs,needs=parse(fn)
    p='crates/'+crate+'/proofs/'+fn+'/Proof.antt'; s=open(p).read()
    lems=set()
    def rep(m):
        n=m.group(1); rec=needs.get('Need-'+n)
        fs=[e for _,e in reversed(facts(recs,rec))]
        for e in fs:
            x=re.match(r'(\S+) _ _',e)
            if x: lems.add(x.group(1))
        if not fs: return m.group(0)
        return n+' c = simp ('+', '.join(fs)+')'
    s=re.sub(r'(?m)^(returns\S*) c = \?',rep,s)
    if lems and 'borrow.Author.Tests' not in s: s=s.replace('-- Assumes nothing.\n','-- Assumes nothing.\nuse borrow.Author.Tests.{%s}\n'%', '.join(sorted(lems)),1)
    open(p,'w').write(s); print(fn,'done')
