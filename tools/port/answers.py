#!/usr/bin/env python3
"""Turns a walk's Proof.antt of the older kit (needs of a Tie) into Invariants.antt and Answers.antt.

usage: convert.py NAMES CRATE_FOLDER..     NAMES: what rt names wrote
"""
import json, os, re, sys

def norm(s):
    SRC=s
    s=s.lower()
    if s.endswith('_lem'): s=s[:-4]
    if s=='type_size': s='size'
    if re.match(r"is[a-z]",s) and s!='is' and SRC.startswith('Is'): s=s[2:]
    return s.replace('_','-').rstrip("'")
PARAMS={}  # (crate, fn) -> [(path, all params, &mut params)]
def scan_params(root):
    import glob
    for p in glob.glob(os.path.join(root,'crates/*/src/**/*.rt'),recursive=True):
        s=open(p,encoding='utf-8').read()
        crate,rel=p.split('/crates/')[1].split('/src/')
        mod=[] if rel in('lib.rt','main.rt') else rel[:-3].split('/')
        for m in re.finditer(r"\bfn (\w+)(?:<[^(]*>)?\(",s):
            i=m.end();d=1
            while d:
                if s[i] in '([<{': d+=1
                elif s[i] in ')]}' or (s[i]=='>' and s[i-1]!='-'): d-=1
                i+=1
            ps=split_commas(re.sub(r"//[^\n]*","",s[m.end():i-1]))
            names=[];muts=[]
            for q in ps:
                n=re.match(r"(?:mut )?(&(?:'\w+ )?(?:mut )?)?(?:mut )?(\w+)",q.strip())
                if not n: continue
                names.append(n[2])
                if re.search(r"&(?:'\w+ )?mut ",q): muts.append(n[2])
            ty=re.findall(r"(?m)^impl(?:<[^>]*>)? (\w+)",s[:m.start()])
            PARAMS.setdefault((crate,m[1]),[]).append(('::'.join([crate]+mod+[m[1]]),names,muts,ty[-1] if ty else None))
def params_of(path):
    cr,fn=path.split('::')[0],path.split('::')[-1]
    c=PARAMS.get((cr,fn)) or []
    for x in c:
        if x[0]==path: return x
    for x in c:
        if x[3] and x[3] in path.split('::'): return x
    return c[0] if c else None
MUTS={}
WRAPS=[]
OWN=[]

USE = re.compile(r"^(?:pub )?use ")

def items(text):
    """Top-level blocks: (kind, name, lines)"""
    lines = text.split('\n')
    out=[]; cur=None
    for l in lines:
        if l.startswith(' ') or l=='':
            if cur is not None: cur.append(l)
            elif l=='': pass
            continue
        cur=[l]; out.append(cur)
    return [ '\n'.join(b).rstrip() for b in out]

def split_args(s):
    """top-level args of an application text"""
    args=[];i=0;n=len(s)
    depth=0;start=None
    while i<n:
        ch=s[i]
        if ch.isspace():
            if depth==0 and start is not None: args.append(s[start:i]); start=None
        else:
            if start is None: start=i
            if ch in '([{«': depth+=1
            elif ch in ')]}»': depth-=1
        i+=1
    if start is not None: args.append(s[start:])
    return args

ARMS={}
MULTI={}   # callee path -> names of its ensures clauses, where there are several
CALLEE={}  # norm(step) -> clause names
PRE=[]
def scan_multi(root):
    import glob
    for p in glob.glob(os.path.join(root,'crates/*/src/**/*.rt'),recursive=True):
        s=open(p,encoding='utf-8').read()
        crate=p.split('/crates/')[1].split('/')[0]
        for m in re.finditer(r"(?m)^\s*ensures (\w+) \{",s):
            f=re.findall(r"fn (\w+)",s[:m.start()])[-1]
            MULTI.setdefault((crate,f),[])
            if m[1] not in MULTI[(crate,f)]: MULTI[(crate,f)].append(m[1])
def tail_tuple(text):
    """(start, end, items) of the tuple that the text ends with, as a whole expression; else None"""
    t=text.rstrip()
    if not t.endswith(')'): return None
    d=0
    for i in range(len(t)-1,-1,-1):
        if t[i] in ')]}': d+=1
        elif t[i] in '([{':
            d-=1
            if d==0: break
    before=t[:i].rstrip()
    if not (before.endswith('=') or re.search(r"(?<![\w'-])in$",before) or before.endswith('. ') ): return None
    inner=t[i+1:-1]
    return i,len(t),split_commas(inner)
def split_commas(inner):
    items=[];d=0;cur=''
    for ch in inner:
        if ch in '([{': d+=1
        elif ch in ')]}': d-=1
        if ch==',' and d==0: items.append(cur.strip()); cur=''
        else: cur+=ch
    if cur.strip(): items.append(cur.strip())
    return items
def as_record(text, fields, report, path, goal):
    r=tail_tuple(text)
    if r is None:
        # the last top-level `in` or `=`
        d=0;cut=None
        for m in re.finditer(r"[(\[{]|[)\]}]|(?<=\s)in(?=\s)|(?<=\s)=(?=\s)",text):
            t=m.group(0)
            if t in '([{': d+=1
            elif t in ')]}': d-=1
            elif d==0 and (t=='in' or cut is None): cut=m.end()
        if cut is None:
            report.append(f"{path}: {goal}: not a tuple for {fields}"); return text
        expr=text[cut:].strip()
        parts=[];acc='whole'
        for k,f in enumerate(fields):
            parts.append(f"{f} = {acc}.0" if k<len(fields)-1 else f"{f} = {acc}")
            acc+='.1'
        return text[:cut]+f"\n    let whole = {expr} in\n    record {{ "+'; '.join(parts)+' }'
    i,e,items=r
    while len(items)<len(fields):
        last=items[-1]
        if last.startswith('(') and last.endswith(')'):
            more=split_commas(last[1:-1])
            if len(more)<2: break
            items=items[:-1]+more
        else: break
    if len(items)>len(fields):
        report.append(f"{path}: {goal}: {len(items)} items for {fields}"); return text
    if len(items)<len(fields):
        report.append(f"{path}: {goal}: {len(items)} items for {fields}"); return text
    rec='record { '+'; '.join(f"{f} = {x}" for f,x in zip(fields,items))+' }'
    return text[:i]+rec+text[e:]
def paths(body, steps):
    # drop .before chains, rename steps
    argnames=set(re.findall(r"let ([\w'-]+)(?: : [^=]*)? = [\w'.-]*\.args\s+in",body))
    ctx={'c'}
    for m in re.finditer(r"let ([\w'-]+)(?: : [^=]*?)? = ([\w'-]+)((?:\.before)*)\s+in",body):
        if m[2] in ctx: ctx.add(m[1])
    ctx|=set(re.findall(r"(?<![\w'-])(c\d+)(?![\w'-])",body))
    body=re.sub(r"(?<![\w.'-])("+'|'.join(re.escape(x) for x in sorted(ctx,key=len,reverse=True))+r")(?:\.before)+(?![\w'-])",r"\1",body)
    body=re.sub(r"\.pre(?![\w'-])",".requires",body)
    body=re.sub(r"\.taken(?![\w'-])",".true",body)
    body=re.sub(r"(\.if\d*|\.loop-test\d*|\.if-[\w'-]+|\.loop-[\w'-]+-test)\.left(?![\w'-])",r"\1.false",body)
    body=re.sub(r"(\.args)\.t(\d+)(?![\w'-])",lambda m: m[1]+'.'+OWN[int(m[2])-1] if int(m[2])<=len(OWN) else m[0],body)
    for a in argnames:
        body=re.sub(r"((?<![\w.'-])"+re.escape(a)+r")\.t(\d+)(?![\w'-])",lambda m: m[1]+'.'+OWN[int(m[2])-1] if int(m[2])<=len(OWN) else m[0],body)
    body=re.sub(r"\.type-inv(?![\w'-])",".type_inv",body)
    body=re.sub(r"\.well-formed(?![\w'-])",".well_formed",body)
    for st,muts in MUTS.items():
        stp=re.escape(st).replace('\\-','[-_]')
        def nw(m):
            w={'last':'new','kept':'auto'}.get(m.group(2),m.group(2))
            digits=m.group(3)
            if not digits: return m.group(1)+'.'+w
            k=digits.count('1')
            if digits.endswith('1') : return m.group(0)
            return m.group(1)+'.'+w+'.'+muts[k] if k<len(muts) else m.group(0)
        body=re.sub(r"((?i:\."+stp+r"))\.(new|last|kept|auto)((?:\.[01](?![\w'-]))*)(?![\w'-])",nw,body)
        for a in set(re.findall(r"let ([\w'-]+)(?: : [^=]*)? = [\w'.-]*\.(?i:"+stp+r")\s+in",body)):
            body=re.sub(r"((?<![\w.'-])"+re.escape(a)+r")\.(new|last|kept|auto)((?:\.[01](?![\w'-]))*)(?![\w'-])",nw,body)
    for st in WRAPS:
        stp=re.escape(st).replace('\\-','[-_]')
        body=re.sub(r"((?i:\."+stp+r")\.ensures)(?!\.value)(?![\w'-])",r"\1.value",body)
    # clauses of a requires, of a callee's ensures
    def pre_path(rest):
        n=len(PRE); k=0; parts=rest[1:].split('.') if rest else []
        while parts and k<n-1 and parts[0]=='1': k+=1; parts=parts[1:]
        if k<n-1:
            if parts and parts[0]=='0': parts=parts[1:]
            else: return None
        return '.'+'.'.join([PRE[k]]+parts)
    if PRE:
        al=set(re.findall(r"let ([\w'-]+)(?: : [^=]*)? = [\w'.-]*\.requires\s+in",body))
        def rq(m):
            r=pre_path(m.group(2)); return m.group(1)+r if r else m.group(0)
        body=re.sub(r"(\.requires)((?:\.[01](?![\w'-]))+)",rq,body)
        for a in al:
            body=re.sub(r"((?<![\w.'-])"+re.escape(a)+r")((?:\.[01](?![\w'-]))+)",rq,body)
    for st,names in CALLEE.items():
        stp=re.escape(st).replace('\\-','[-_]')
        def en(m):
            n=len(names);k=0;parts=m.group(2)[1:].split('.')
            while parts and k<n-1 and parts[0]=='1': k+=1; parts=parts[1:]
            if k<n-1:
                if parts and parts[0]=='0': parts=parts[1:]
                else: return m.group(0)
            return m.group(1)+'.'+'.'.join([names[k]]+parts)
        body=re.sub(r"(\."+stp+r"\.ensures)((?:\.\d(?![\w'-]))+)",en,body)
        for a in set(re.findall(r"let ([\w'-]+)(?: : [^=]*)? = [\w'.-]*\."+stp+r"\.ensures\s+in",body)):
            body=re.sub(r"((?<![\w.'-])"+re.escape(a)+r")((?:\.\d(?![\w'-]))+)",en,body)
    for m in list(re.finditer(r"let ([\w'-]+) = ([\w'.-]+)\.([\w'-]+)\s+in",body)):
        arms=ARMS.get(norm(m[3]))
        if not arms: continue
        a=m[1]
        for pth,new in sorted(arms,key=lambda x:-len(x[0])):
            body=re.sub(r"(?<![\w.'-])"+re.escape(a)+r"\."+re.escape('.'.join(pth))+r"(?![\w'-])",lambda _: m[2]+'.'+'.'.join(new),body)
        rest=body.replace(m[0],'')
        if not re.search(r"(?<![\w.'-])"+re.escape(a)+r"(?![\w'-])",rest): body=re.sub(re.escape(m[0])+r"\s*",'',body)
    def chain(m):
        base=re.search(r"[\w'-]*$",m.string[:m.start()]).group(0)
        parts=m.group(0)[1:].split('.')
        for i,p in enumerate(parts):
            arms=ARMS.get(norm(p))
            if arms:
                for pth,new in sorted(arms,key=lambda x:-len(x[0])):
                    if tuple(parts[i+1:i+1+len(pth)])==pth and pth:
                        return '.'+'.'.join([(steps.get(norm(q),q)) for q in parts[:i]]+list(new)+parts[i+1+len(pth):])
        q=steps.get(norm(parts[0]))
        if q and (base in ctx or not re.search(r"-1$",q)): parts[0]=q
        return '.'+'.'.join(parts)
    return re.sub(r"(?<=[\w')])(?:\.[A-Za-z0-9][\w'-]*)+", chain, body)

def subst(body, table):
    def rep(m):
        return table.get(m.group(0), m.group(0))
    return re.sub(r"(?<![\w.'₀-₉-])[A-Za-z_][\w'₀-₉]*(?:-[\w'₀-₉]+)*", rep, body)

def convert(path, entry, report):
    text=open(path,encoding='utf-8').read()
    text=re.sub(r"List-set_of_Decides","list_set",text)
    bl=items(text)
    uses=[];rest=[];head=[]
    for b in bl:
        if USE.match(b): uses.append(b)
        elif b.startswith('--') and not uses and not rest: head.append(b)
        else: rest.append(b)
    steps={}
    for pl in entry['places']:
        old,new=pl[2]
        if old: steps.setdefault(norm(old),new)
        # loop fields: the loop step
    ARMS.clear()
    for a in entry.get('arms') or []:
        if a:
            for newf,oldstep,pth in a[2]:
                if pth: ARMS.setdefault(norm(oldstep),[]).append((tuple(pth),(a[0],newf)))
    CALLEE.clear(); MUTS.clear(); WRAPS.clear()
    for pl in entry['places']:
        if pl[3]:
            if '::num::wrapping_' in pl[3]: WRAPS.append(norm(pl[2][0]))
            x=params_of(pl[3])
            if x: MUTS[norm(pl[2][0])]=x[1]
    x=params_of(entry['self'])
    OWN[:]=x[1] if x else []
    for pl in entry['places']:
        if pl[3]:
            cr,fn=pl[3].split('::')[0],pl[3].split('::')[-1]
            nm=MULTI.get((cr,fn))
            if nm: CALLEE[norm(pl[2][0])]=nm
    PRE[:]=(entry.get('pre') or {}).get('fields') or []
    asked=entry.get('asked') or {}
    needs=entry['needs']
    oldof={n:o for o,n in needs}
    # group: signature, unfolding, clauses
    groups=[]  # dict(name, sig, extra[], comments)
    comments=[]
    for b in rest:
        if b.startswith('--'): comments.append(b); continue
        m=re.match(r"^((?:pub |abbrev |unfoldable |record |data )*)([^\s:(){}]+)\s*(?::|\(|\{)",b)
        if b.startswith('unfolding') or b.startswith('hiding'):
            groups[-1]['body'].append(b); continue
        if groups and re.match(re.escape(groups[-1]['name'])+r"(?=[\s=])",b) and not re.match(re.escape(groups[-1]['name'])+r"\s*:",b):
            groups[-1]['body'].append(b); continue
        if not m:
            # a clause of an operator or something else
            if groups: groups[-1]['body'].append(b)
            else: report.append(f"{path}: not read: {b[:60]}")
            continue
        groups.append(dict(name=m[2],sig=b,body=[],comments=comments)); comments=[]
    spec=None
    inv=[];ans=[];helpers=[]
    named={}
    for g in groups:
        t=g['sig']
        if re.search(r":\s*\{M : Type 1\}\s*→\s*statement",t) or 'tie.close' in ' '.join(g['body']):
            spec=g; continue
        m=re.search(r":\s*tie\.(invariant|decreases)-(loop[\w-]*)",t)
        if m:
            inv.append((m[1],m[2],g)); continue
        m=re.search(r":\s*tie\.Need-([\w'-]+)",t)
        if m:
            g['need']=m[1]; named[g['name']]=g; ans.append(g); continue
        helpers.append(g)
    if spec is None:
        report.append(f"{path}: no spec"); return False
    full=' '.join(spec['body'])
    m=re.search(r"tie\.spec(.*)",full,re.S)
    args=[]
    s=m[1].strip()
    # strip the closing paren of (tie.spec ..)
    depth=0;cut=len(s)
    for i,ch in enumerate(s):
        if ch in '([{': depth+=1
        elif ch in ')]}':
            depth-=1
            if depth<0: cut=i;break
    args=split_args(s[:cut])
    ninv=sum(1 for a in args if a in [g['name'] for _,_,g in inv])
    nargs=args[ninv:]
    byold={}
    for o,n in needs: byold.setdefault(norm(o),n)
    newname={}
    inline=[]
    ok_len = len(nargs)==len(needs)
    if not ok_len: report.append(f"{path}: {len(nargs)} given, {len(needs)} needs")
    for i,a in enumerate(nargs):
        if a in named:
            if ok_len: newname[a]=needs[i][1]
        elif ok_len and not re.fullmatch(r"\(λ \w+( κs)?\. search rules\)",a):
            inline.append((needs[i][1],a))
        elif not ok_len and 'search rules' not in a:
            report.append(f"{path}: inline {a[:80]} dropped")
    for g in ans:
        k=norm(g['need'])
        cand=byold.get(k)
        if cand is None:
            for pre in ('overflow-','nonzero-','in-bounds-','bounds-'):
                if k.startswith(pre) and k[len(pre):] in byold: cand=byold[k[len(pre):]];break
        if g['name'] in newname:
            if cand and cand!=newname[g['name']]:
                report.append(f"{path}: {g['name']}: by place {newname[g['name']]}, by name {cand}")
                newname[g['name']]=cand
        elif cand: newname[g['name']]=cand
        else:
            report.append(f"{path}: {g['name']}: no goal for Need-{g['need']}")
            newname[g['name']]=None
    uselines=[]
    goaluse=None
    for u in uses:
        if re.search(r"\.Statement\.\{statement\}",u): continue
        m=re.search(r"^use (\S+)\.Tie as tie",u)
        if m: goaluse=m[1]; continue
        uselines.append(u)
    if goaluse is None:
        report.append(f"{path}: no Tie"); return False
    folder=os.path.dirname(path)
    # answers
    out=[]
    dropped=[]
    ren={g['name']:newname[g['name']] for g in ans if newname[g['name']]}
    def emit(g,name):
        res=[]
        res+= g['comments']
        b=[]
        for x in g['body']:
            b.append(x)
        return res,b
    for g in groups:
        if g is spec or any(g is h for _,_,h in inv): continue
        if 'need' in g:
            n=newname[g['name']]
            if not n:
                dropped.append(g); continue
            out+=['']+g['comments']
            out.append(f"pub {n} : goal.{n}")
            for x in g['body']:
                y=x
                if y.startswith(g['name']) : y='\0'+y[len(g['name']):]
                if not x.startswith('unfolding'):
                    y=re.sub(r"^(\0 \w+) κs(?= )",r"\1",y)
                    y=paths(y,steps)
                    y=re.sub(r"(?<![\w.'-])(?:"+'|'.join(re.escape(k) for k in sorted(ren,key=len,reverse=True))+r")(?![\w'-])",lambda m:ren[m[0]],y)
                y=y.replace('\0',n)
                flds=asked.get(oldof.get(n,''))
                if flds and not x.startswith('unfolding'): y=as_record(y,flds,report,path,n)
                out.append(y)
        else:
            out+=['']+g['comments']+[g['sig'] if 'tie.' not in g['sig'] else paths(g['sig'],steps)]+[paths(x,steps) if 'tie' in x or '.before' in x else x for x in g['body']]
    for n,a in inline:
        b=a.strip()
        out+=['',f"pub {n} : goal.{n}"]
        m=re.fullmatch(r"\(λ (\w+)( κs)?\. (.*)\)",b,re.S)
        if m: out.append(f"{n} {m[1]} = {paths(m[3],steps)}")
        else: out.append(f"{n} = {paths(b,steps)}")
    # local uses of answers by one another
    txt='\n'.join(out)
    invtxt=None
    if inv:
        o2=[]
        for kind,lname,g in inv:
            idx=0
            m=re.fullmatch(r"loop(?:-?(\d+))?",lname)
            # by name in json
            lp=None
            for l in entry['loops']:
                if norm(l[0][0])==norm(lname): lp=l
            if lp is None:
                report.append(f"{path}: no loop {lname}"); return False
            new=lp[0][1]; vars_=lp[1]
            li=entry['loops'].index(lp); ch=entry['changed'][li]
            body=[x for x in g['body'] if not x.startswith('unfolding')]
            unf=[x for x in g['body'] if x.startswith('unfolding')]
            m=re.match(re.escape(g['name'])+r"\s+(.*?)=(.*)",body[0],re.S)
            params=m[1].split(); rhs=m[2]
            want=[]
            for v,c in zip(vars_,ch):
                want.append(('i' if c else 'v',v))
            for v,c in zip(vars_,ch):
                if c: want.append(('v',v))
            if len(params)!=len(want):
                report.append(f"{path}: loop {lname}: {len(params)} params, {len(want)} vars: {params} / {want}")
                # try without initial
            table={}
            for p,w in zip(params,want):
                if p=='_': continue
                table[p]= ('l.initial.' if w[0]=='i' else 'l.')+w[1]
            name=f"{kind}-{new}"
            o2+=['']+g['comments']+[f"abbrev pub {name} : goal.{name}"]+unf+[f"{name} l ={subst(rhs,table)}"]
        invtxt='\n'.join(o2)
        used=[h for h in helpers if re.search(r"(?<![\w.'-])"+re.escape(h['name'])+r"(?![\w'-])",invtxt)]
        if used: report.append(f"{path}: invariants use {[h['name'] for h in used]}")
    h=[x.replace('Proof','') for x in head]
    if invtxt:
        with open(os.path.join(folder,'Invariants.antt'),'w',encoding='utf-8') as f:
            f.write('\n'.join(head+uselines+[f"use {goaluse}.Given as goal"])+'\n'+invtxt+'\n')
    if txt.strip():
        with open(os.path.join(folder,'Answers.antt'),'w',encoding='utf-8') as f:
            f.write('\n'.join(head+uselines+[f"use {goaluse}.Goals as goal"])+'\n'+txt+'\n')
    os.remove(path)
    return True

def main():
    names=sys.argv[1]
    for crate in sys.argv[2:]:
        c=os.path.basename(crate.rstrip('/'))
        d=json.load(open(os.path.join(names,'crates',c,'names.json')))
        report=[];n=0;bad=0
        if not PARAMS: scan_params(os.path.dirname(os.path.dirname(os.path.abspath(crate.rstrip('/')))))
        if not MULTI: scan_multi(os.path.dirname(os.path.dirname(os.path.abspath(crate.rstrip('/')))))
        for folder,_,files in os.walk(os.path.join(crate,'proofs')):
            if 'Proof.antt' in files:
                p=os.path.join(folder,'Proof.antt')
                rel=os.path.relpath(folder,os.path.join(crate,'proofs')).replace('/','.')
                key=f"Rattle-{c}-proofs.{rel}.Lts"
                if key not in d:
                    report.append(f"{p}: no entry {key}"); continue
                try:
                    d[key]['self']='::'.join([c]+rel.split('.'))
                    r=convert(p,d[key],report)
                except Exception as e:
                    report.append(f"{p}: FAILED {e!r}"); r=False
                n+=1; bad+= not r
        print(f"{c}: {n} proofs, {bad} left")
        for r in report: print("  "+r)
main()
