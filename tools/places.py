#!/usr/bin/env python3
"""Counts the places of docs/DESIGN-PASS.md: places.py WHAT, at the top of the repository.

answers     types that answer in the shape of Option or Result, or hold a flag beside a value, by the names of their cases and fields
twins       pairs of functions whose bodies are alike up to names, numbers and texts
loops       loops that step a variable by 1
facts       clause texts and words of clauses that stand in three or more functions
fact        the functions whose clauses match a pattern
parameters  groups of neighbouring parameters in three or more functions
repeated    answers by name, and bodies that three or more of them have up to numbers
doubles     lemmas of one statement in two crates, or in two files of one
library     lemmas whose statement, up to bound names, the library has
imports     import lines by a low-level path that Common or Prelude offers
"""
import collections
import difflib
import glob
import os
import re
import subprocess
import sys
from collections import defaultdict
from itertools import combinations


def kit():
    """The folder of the kit's libraries."""
    return os.path.join(os.path.dirname(subprocess.check_output(['rt', 'doc'], text=True).strip()), 'rattle', '')


def answers():
    n=0
    for f in sorted(glob.glob('crates/*/src/*.rt')):
        for m in re.finditer(r'^(?:pub )?(enum|struct) (\w+)\s*[{(](.*?)^[})]',open(f).read(),re.M|re.S):
            b=re.sub(r'//[^\n]*','',m.group(3))
            if re.search(r'\b(Accepted|Refused|Bad|Faulty|Fault|Over|Ended)\b' if m.group(1)=='enum' else r'\b(verdict|whole|yes):',b): n+=1; print(f[7:],m.group(1),m.group(2))
    print(n)


def twins():
    F=[]
    for f in sorted(glob.glob('crates/*/src/*.rt')):
        s=re.sub(r'//[^\n]*','',open(f).read())
        s=re.sub(r'\n\s+(requires|ensures)[^\n]*','',s)
        for m in re.finditer(r'\bfn (\w+)[^{]*?\{',s):
            i=m.end();d=1;j=i
            while d:
                d+={'{':1,'}':-1}.get(s[j],0); j+=1
            b=s[m.start():j]
            t=re.findall(r'b"(?:[^"\\]|\\.)*"|\w+|[^\s\w]',b)
            t=[x for x in t if x!=',']
            F.append((f[7:]+':'+m.group(1),['S' if x[0:2]=='b"' else ('0' if x[0].isdigit() else ('v' if re.match(r'\w',x) and x not in('if','while','loop','match','return','let','fn','for','in','as','true','false') else x)) for x in t]))
    R=[]
    for a in range(len(F)):
        for b in range(a):
            x,y=F[a],F[b]
            if min(len(x[1]),len(y[1]))<30: continue
            if abs(len(x[1])-len(y[1]))>0.12*max(len(x[1]),len(y[1])): continue
            r=difflib.SequenceMatcher(None,x[1],y[1],autojunk=False).ratio()
            if r>=0.93: R.append((round(r,3),min(len(x[1]),len(y[1])),y[0],x[0]))
    for r in sorted(R,reverse=True): print(*r)
    print(len(R),len(F))


def loops():
    k=0;o=[]
    for f in sorted(glob.glob('crates/*/src/*.rt')):
        L=open(f).read().split('\n'); fn=''
        for i,l in enumerate(L):
            m=re.search(r'\bfn (\w+)',l)
            if m: fn=m.group(1)
            m=re.match(r"(\s*)(?:'\w+: )?(while\b.*|loop) \{$",l)
            if not m: continue
            e=next(j for j in range(i+1,len(L)) if L[j]==m.group(1)+'}')
            s=[x.strip() for x in L[i+1:e] if re.match(m.group(1)+r'    \w+ [+-]= 1;$',x)]
            if s: k+=1; print(f'{f[7:]}:{i+1} {fn}: {m.group(2)}: {" ".join(s)}')
            else: o.append(f'{f[7:]}:{i+1} {fn}: {m.group(2)}')
    print(k,'of',k+len(o),'loops; not:',o)


def facts():
    A=defaultdict(dict); W=defaultdict(dict)
    for f in sorted(glob.glob('crates/*/src/*.rt')):
        name=None
        for i,l in enumerate(open(f),1):
            m=re.match(r'\s*(?:pub )?(?:extern "C" )?fn (\w+)',l)
            if m: name=m.group(1)
            m=re.match(r'\s+(requires|ensures)\s*(\w+)?\s*\{(.*)\}\s*$',l)
            if not m: continue
            w=f'{f[7:]}:{name}'
            for p in m.group(3).split(' × '):
                p=re.sub(r'\.(now|old|new)\b','',p); p=re.sub(r'\b[a-z]\b','v',p); p=p.strip().strip('()')
                A[p][w]=1
            for t in set(re.findall(r"[A-Za-z_]\w+",m.group(3))): W[t][w]=1
    print('== facts, single-letter names made alike')
    for p,v in sorted(A.items(),key=lambda x:-len(x[1])):
        if len(v)>=3: print(len(v),p,'|',', '.join(v))
    print('== words')
    for p,v in sorted(W.items(),key=lambda x:-len(x[1])):
        if len(v)>=3: print(len(v),p,'|',', '.join(v)[:260])


def fact():
    for pat in sys.argv[2:]:
        v={}
        for f in sorted(glob.glob('crates/*/src/*.rt')):
            n=None
            for l in open(f):
                m=re.match(r'\s*(?:pub )?(?:extern "C" )?fn (\w+)',l)
                if m: n=m.group(1)
                if re.match(r'\s+(requires|ensures)\b',l) and re.search(pat,l): v[f[7:].replace('/src/','/')[:-3]+':'+n]=1
        print(len(v),pat,'|',', '.join(v))


def parameters():
    F=[]
    for f in sorted(glob.glob('crates/*/src/*.rt')):
        s=open(f).read()
        for m in re.finditer(r'\bfn (\w+)(?:<[^>]*>)?\s*\(([^)]*)\)',s):
            ps=[re.sub(r'\s*:.*','',p.strip()) for p in re.sub(r'\[[^\]]*\]','',m.group(2)).split(',') if p.strip()]
            ps=[p.replace('mut ','') for p in ps]
            F.append((f[7:]+':'+m.group(1),ps))
    print(len(F))
    G=defaultdict(list)
    for n,ps in F:
        for k in range(2,6):
            for i in range(len(ps)-k+1):
                G[tuple(ps[i:i+k])].append(n)
    for g,v in sorted(G.items(),key=lambda x:(-len(x[1]))):
        if len(v)>=3: print(len(v),g,'|',', '.join(v)[:3000])


def repeated():
    B=collections.defaultdict(list); own=[]; tot=0
    for f in sorted(glob.glob('crates/*/proofs/**/Answers.antt',recursive=True)):
        s=open(f).read()
        for m in re.finditer(r'^pub ([^\s:]+) : goal\.[^\n]*\n((?:unfolding[^\n]*\n)?)\1 ([^\n]*(?:\n[ )][^\n]*)*)',s,re.M):
            tot+=1; b=re.sub(r'\s+',' ',m.group(3)).partition('= ')[2].strip()
            B[re.sub(r'\d+','N',b)].append(f[7:]+':'+m.group(1))
            w=set(re.findall(r"(?<![\w.\-])[A-Za-z_][\w\-']*",re.sub(r"\b[a-z]\.[\w\-.+]*",'',b)))
            if w<={'omega','arith','refl','c','t','s','sym','ap'}: own.append(f[7:]+':'+m.group(1))
    print(tot,'answers;',len(own),'cite nothing but facts of their own goal:',own)
    for b,v in sorted(B.items(),key=lambda x:-len(x[1])):
        if len(v)>=3: print(len(v),'answers, up to numbers:',b[:110],'|',', '.join(sorted({x.split(':')[0] for x in v})))


def doubles():
    # declarations: name : type (in proofs/ and specs/)
    D=[]
    for f in sorted(glob.glob('crates/*/proofs/**/*.antt',recursive=True)+glob.glob('crates/*/specs/**/*.antt',recursive=True)):
        L=open(f).read().split('\n')
        i=0
        while i<len(L):
            m=re.match(r"^(\s*)(?:pub )?(?:abbrev )?([^\s(){}:=.]+)(?:\s+)?: (.*)$",L[i])
            if m and not re.match(r'\s*(use|let|module|record|inductive|where|--)',L[i]):
                t=m.group(3); j=i+1
                while j<len(L) and re.match(r'^\s{4,}(→|×)',L[j]): t+=' '+L[j].strip(); j+=1
                D.append((f.split('/')[1],f[7:],i+1,m.group(2),re.sub(r'\s+',' ',t),len(m.group(1))))
            i+=1
    print(len(D))
    by=collections.defaultdict(list)
    for d in D:
        if d[5]==0: by[(d[3],d[4])].append(d)
    print('== same name and statement, two crates or more')
    n=0
    for k,v in sorted(by.items()):
        if len({x[0] for x in v})>1 and '.Goals' not in k[1] and not k[1].startswith('goal.'):
            n+=1; print(k[0],':',k[1][:150],'|',[x[1]+':'+str(x[2]) for x in v])
    print(n)
    def norm(t):
        names={}
        def r(m):
            w=m.group(0)
            return w
        # bound names in (a b : T) and {a : T}
        bound=[]
        for g in re.findall(r"[({]([^(){}:]+) : ",t):
            bound+=g.split()
        for g in re.findall(r"λ ([^.]+)\.",t): bound+=re.sub(r'[(){}]|:.*','',g).split()
        for n_ in bound:
            if n_ not in names: names[n_]=f'v{len(names)}'
        return re.sub(r"[A-Za-z_][\w'?]*",lambda m:names.get(m.group(0),m.group(0)),t)
    by2=collections.defaultdict(list)
    for d in D:
        if d[4].startswith('goal.') or d[4].startswith('Type') : continue
        if len(d[4])<25: continue
        by2[norm(d[4])].append(d)
    print('== same statement up to bound names, two crates or more (any lemma name)')
    n=0
    for k,v in sorted(by2.items()):
        if len({x[0] for x in v})>1:
            n+=1; print(k[:170],'|',[x[1]+':'+str(x[2])+':'+x[3] for x in v])
    print(n)
    print('== same statement up to bound names, two files of one crate')
    n=0
    for k,v in sorted(by2.items()):
        if len({x[0] for x in v})==1 and len({x[1] for x in v})>1:
            n+=1; print(k[:170],'|',[x[1]+':'+str(x[2])+':'+x[3] for x in v])
    print(n)
    nm=collections.defaultdict(set)
    for d in D:
        if d[5]==0 and not d[4].startswith('goal.'): nm[d[3]].add(d[0])
    r=sorted((k,sorted(v)) for k,v in nm.items() if len(v)>1)
    print('== same name in two crates',len(r)); 
    for k,v in r: print(k,v)


def library():
    def decls(files):
        D=[]
        for f in files:
            L=open(f,errors='replace').read().split('\n'); i=0
            while i<len(L):
                m=re.match(r"^(?:pub )?([^\s(){}:=.]+)(?:\s+)?: (.*)$",L[i])
                if m and m.group(1) not in('use','let','module','record','inductive','where','--'):
                    t=m.group(2); j=i+1
                    while j<len(L) and re.match(r'^\s{2,}(→|×|≡)',L[j]): t+=' '+L[j].strip(); j+=1
                    D.append((f,i+1,m.group(1),re.sub(r'\s+',' ',t)))
                i+=1
        return D
    def norm(t):
        b=[]
        for g in re.findall(r"[({]([^(){}:]+) : ",t): b+=g.split()
        for g in re.findall(r"λ ([^.]+)\.",t): b+=re.sub(r'[(){}]|:.*','',g).split()
        n={}
        for x in b: n.setdefault(x,f'v{len(n)}')
        t=re.sub(r"[({][^(){}:]+ : [^(){}]*[)}] → |[{][^{}]*[}] → ",'',t)
        n2={}
        def r(m):
            w=m.group(0)
            if w in n: n2.setdefault(w,f'v{len(n2)}'); return n2[w]
            return w
        return re.sub(r"[A-Za-z_ℓ][\w'?]*",r,t).replace('suc ','S ')
    own=decls(sorted(glob.glob('crates/*/proofs/**/*.antt',recursive=True)+glob.glob('crates/*/specs/**/*.antt',recursive=True)))
    lib=decls(sorted(set(glob.glob(kit()+'std*/**/*.antt',recursive=True)+glob.glob(kit()+'core/**/*.antt',recursive=True)+glob.glob(kit()+'logic/**/*.antt',recursive=True)+glob.glob(kit()+'io/**/*.antt',recursive=True))))
    print(len(own),len(lib))
    d=collections.defaultdict(list)
    for x in lib:
        if len(x[3])>12 and 'goal.' not in x[3]: d[norm(x[3])].append(x)
    k=0
    for x in own:
        if len(x[3])<=18 or 'goal.' in x[3] or 'Type' in x[3] : continue
        n=norm(x[3])
        if n in d and len(n)>12 and re.search('≡|≤|<|→',n) and 'v0' in n:
            k+=1; print(x[0][7:],x[1],x[2],':',x[3][:110],'|',d[n][0][2],d[n][0][0].replace(kit(),'')[:60])
    print(k)


def imports():
    std=set()
    for p in ('proofs/Common','specs/Prelude'):
        for m in re.finditer(r'use +([\w.+]+)\.\{([^}]*)\}',open(kit()+'std/'+p+'.antt').read()): std|={n.strip() for n in m.group(2).split(',')}
    low=re.compile(r'^(mathlib|Prim|lib|borrow|mir|native|denote)\.|^Rattle\.std\.proofs\.Math')
    n=o=part=nn=oo=0; fs=set(); per=collections.Counter(); pre=collections.Counter()
    for f in glob.glob('crates/*/proofs/**/*.antt',recursive=True)+glob.glob('crates/*/specs/**/*.antt',recursive=True):
        for m in re.finditer(r'^\s*(?:pub )?use +([\w.+\-]+?)\.\{([^}]*)\}',open(f).read(),re.M):
            if not low.match(m.group(1)): continue
            names=[x.strip() for x in m.group(2).split(',') if x.strip()]; k=[x for x in names if x in std]
            n+=1; nn+=len(names); oo+=len(k); o+=len(k)==len(names); part+=0<len(k)<len(names)
            if k: fs.add(f); per[f.split('/')[1]]+=1; pre['.'.join(m.group(1).split('.')[:4 if m.group(1)[0]=='R' else 2])]+=1
    print(n,'low-level import lines;',o,'wholly offered,',part,'partly;',nn,'names,',oo,'offered;',len(fs),'files')
    print('lines offered, by path:',pre.most_common()); print('by crate:',per.most_common())


if __name__ == '__main__':
    what = {f.__name__: f for f in (answers, twins, loops, facts, fact, parameters, repeated, doubles, library, imports)}
    if len(sys.argv) < 2 or sys.argv[1] not in what:
        sys.exit(__doc__)
    what[sys.argv[1]]()
