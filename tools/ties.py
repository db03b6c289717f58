#!/usr/bin/env python3
"""usage: ties.py CRATEDIR NAMES.json : turns Proof.antt files (tie form) to the names that Rattle makes now."""
import json,os,re,sys
crate,names=sys.argv[1],sys.argv[2]
only=sys.argv[3:] 
D=json.load(open(names))
SRC=set()
for d_,_,fs_ in os.walk(os.path.join(crate,'src')):
    for f_ in fs_:
        if f_.endswith('.rt'): SRC|=set(re.findall(r"[a-z]\w*_\w+",open(os.path.join(d_,f_),encoding='utf-8').read()))
alike=lambda s: re.sub(r"[-_«»]","",s).lower()
esc=lambda s: "«"+s+"»" if s in ("open","data","record","ruleset","syntax","module","where") else s
W=r"(?:«[^»]*»|[^\W\d][\w'₀₁₂₃₄₅₆₇₈₉-]*)"
cname=os.path.basename(os.path.abspath(crate))
PRE=['','overflow','nonzero','bounds','slicebounds']
def need_key(maps,x):
    a=alike(x)
    if a in maps: return maps[a]
    if a.startswith('slicebounds') and 'part'+a[11:] in maps: return maps['part'+a[11:]]
    for p in PRE[1:]:
        if a.startswith(p) and a[len(p):] in maps: return maps[a[len(p):]]
    return None
def convert(path,x,fn):
    t=open(path,encoding='utf-8').read()
    if 'tie.close' not in t: return None
    said=[]
    nn={n for _,n in x['needs']}
    got=set(re.findall(r'tie\.Need-('+W+')',t))
    if got and got<=nn and f'pub {fn}_spec' in t and not re.search(r'\.before\.(before|args|requires|loop|if\d)|\.if\d',t): return None
    needs={}
    for o,n in x['needs']:
        needs.setdefault(alike(o),n)
    newneeds=[n for _,n in x['needs']]
    places=x['places']; idx={p[0]:i for i,p in enumerate(places)}
    newname=x['places_by_name']; arms=x['arms']
    oldparent=[idx.get(p[1]) if p[1] else None for p in places]
    def up(i,n):
        for _ in range(n):
            if i is None: return None
            i=oldparent[i]
        return i
    def upper(i,n):
        r=up(i,n)
        return 0 if r is None else r
    mid=[bool(arms[i]) and newname[i].lower()!=arms[i][0].lower() for i in range(len(places))]
    newparent=[up(i,arms[i][1]) if arms[i] and not mid[i] else oldparent[i] for i in range(len(places))]
    placeold={alike(p[0]):i for i,p in enumerate(places)}
    askedold={}
    for (o,n),(po,pn) in zip(x['needs'],x['asked_at']):
        askedold[n]=idx.get(po)
    loops={alike(a[0][0]):a[0][1] for a in x['loops']}
    # split into declarations
    lines=t.split('\n')
    blocks=[];cur=[]
    for l in lines:
        if l and not l[0].isspace() and (re.match(r"(pub |abbrev |unfoldable )*"+W+r"\s*(\{[^}]*\}|\([^)]*\))*\s*:",l)) and not l.startswith('--') :
            blocks.append(cur);cur=[l]
        elif l.startswith('--') and cur and not cur[0].startswith('use'):
            blocks.append(cur);cur=[l]
        else: cur.append(l)
    blocks.append(cur)
    # helper signatures: name -> new place index
    helper={}
    for b in blocks:
        s='\n'.join(b)
        m=re.search(r"^(?:pub |abbrev |unfoldable )*("+W+r")\s*:\s*(?:\{[^}]*\}\s*→?\s*)*\((\w+) : tie\.("+W+r")",s,re.M)
        if m and alike(m.group(3)) in placeold: helper[m.group(1)]=placeold[alike(m.group(3))]
        m=re.search(r"^(?:pub |abbrev |unfoldable )*("+W+r")\s*:\s*tie\.("+W+r")(?=\s*→)",s,re.M)
        if m and alike(m.group(2)) in placeold: helper[m.group(1)]=placeold[alike(m.group(2))]
    localneed={}
    for b in blocks:
        m=re.search(r"^(?:pub |abbrev )*("+W+r")\s*:\s*tie\.Need-("+W+r")",'\n'.join(b),re.M)
        if m: localneed[m.group(1)]=need_key(needs,m.group(2))
    for b in blocks:
        m=re.search(r"^(?:pub |abbrev |unfoldable )*("+W+r")\s*:\s*(?:\{[^}]*\}\s*→?\s*)*\((\w+) : Dom ("+W+r")\)",'\n'.join(b),re.M)
        if m and m.group(3) in localneed: helper[m.group(1)]=askedold.get(localneed[m.group(3)])
    helperres={}
    for b in blocks:
        st='\n'.join(b)
        m=re.search(r"^(?:pub |abbrev |unfoldable )*("+W+r")\s*:\s*(.*)",st,re.M)
        if m and m.group(1) in helper:
            typ=re.split(r"\n"+re.escape(m.group(1))+r"\b",st[m.start():])[0]
            r=re.search(r"→\s*tie\.("+W+r")\s*$",typ.strip()) or re.search(r"→\s*tie\.("+W+r")(?:\s+invariant\S*|\s+decreases\S*)*\s*$",typ.strip())
            if r and alike(r.group(1)) in placeold: helperres[m.group(1)]=placeold[alike(r.group(1))]
    def ownstep(i,comp):
        o=alike(places[i][2][0])
        return o==alike(comp) or o==alike(re.sub(r"_(holds|lem)$","",comp))
    def find_step(base,at,comp):
        """The place of the step comp, at or above the place at; else, since the older Rattle had more steps, the uppermost above base."""
        j=at
        while j is not None and not ownstep(j,comp): j=oldparent[j]
        if j is None:
            q=base
            while q is not None:
                if ownstep(q,comp): j=q
                q=oldparent[q]
        return j
    def turn_body(s,var,place,result=None):
        """s: text of a declaration's clauses; var bound to old place"""
        env={var:place}
        out='';pos=0
        tok=re.compile(r"(?<![\w.'-])("+W+r")((?:\.(?:"+W+r"|\d+))*)|\)((?:\.(?:"+W+r"|\d+))+)")
        hlet=re.compile(r"let ("+W+r") = ("+W+r")\s")
        stepre=re.compile(r"let ("+W+r") = ("+W+r"(?:\.before)*)\.("+W+r")\s+in\b"); steps={}; tuples={}; shadow={}
        autore=re.compile(r"let ("+W+r") = ("+W+r"(?:\.before)*)\.("+W+r")\.(?:auto|new|last)\s+in\b")
        letre=re.compile(r"let ("+W+r") = ("+W+r"(?:\.before)*)(\s+in\b)")
        for m in tok.finditer(s):
            if m.start()<pos: continue
            if m.group(1) and not m.group(2) and re.match(r"\s+=\s",s[m.end():]) and re.search(r"[{;]\s*$",s[:m.start()]): continue
            out+=s[pos:m.start()]
            v=m.group(1)
            if m.group(3):
                d=1;q=len(out)-1
                while q>=0:
                    if out[q]==')': d+=1
                    elif out[q]=='(':
                        d-=1
                        if d==0: break
                    q-=1
                h=re.match(r"\(\s*("+W+r")\s",out[q:]) if q>=0 else None
                if h and h.group(1) in helperres:
                    pl_=helperres[h.group(1)]
                    r=path_from('',m.group(3),pl_,pl_)
                    if isinstance(r,tuple):
                        target=r[2];z=pl_;n=0
                        # which helper takes it?
                        hm=re.search(r"("+W+r")\s*$",out[:q])
                        if hm and hm.group(1) in helper: target=helper[hm.group(1)]
                        while z is not None and z!=target: z=newparent[z];n+=1
                        if z is None: n=m.group(3).count('before'); said.append('helper result '+h.group(1)+m.group(3))
                        out+=')'+'.before'*n
                    else: out+=')'+r
                else: out+=m.group(0)
                pos=m.end(); continue
            depth=out.count('(')-out.count(')')
            for w_ in [w_ for w_,d_ in shadow.items() if depth<d_]: del shadow[w_]
            if v in env and not m.group(2) and re.search(r"λ[^.→=]*$",out):
                shadow[v]=depth
                out+=m.group(0); pos=m.end(); continue
            if v in shadow:
                out+=m.group(0); pos=m.end(); continue
            am=autore.match(s,m.start())
            if am and am.group(2).split('.')[0] in env and env[am.group(2).split('.')[0]] is not None:
                b=am.group(2).split('.')[0];e=env[b]
                base,at=(e[1],e[2]) if isinstance(e,tuple) else (e,e)
                j=find_step(base,upper(at,am.group(2).count('.before')),am.group(3))
                if j is not None: tuples[am.group(1)]=who(j)
            if v in tuples and re.match(r'\.[01](\.[01])*$',m.group(2)):
                out+='.'.join(autos([v]+m.group(2)[1:].split('.'),0,tuples[v])); pos=m.end(); continue
            hl=hlet.match(s,m.start())
            if hl and hl.group(2) in helperres: env[hl.group(1)]=helperres[hl.group(2)]
            lm=letre.match(s,m.start())
            if lm and lm.group(2).split('.')[0] in env and env[lm.group(2).split('.')[0]] is not None:
                v=lm.group(2).split('.')[0];n=lm.group(2).count('.before');i=env[v]
                # alias of a place: the alias keeps the whole record: paths from it are looked up from the original place
                b,a=(i[1],i[2]) if isinstance(i,tuple) else (i,i)
                env[lm.group(1)]=('A',b,upper(a,n))
                out+=f'let {lm.group(1)} = {v}{lm.group(3)}'
                pos=lm.end();continue
            v=m.group(1)
            sm=stepre.match(s,m.start())
            if sm and sm.group(2).split('.')[0] in env and env[sm.group(2).split('.')[0]] is not None:
                b=sm.group(2).split('.')[0];e=env[b]
                base,at=(e[1],e[2]) if isinstance(e,tuple) else (e,e)
                j=find_step(base,upper(at,sm.group(2).count('.before')),sm.group(3))
                if j is not None: steps[sm.group(1)]=who(j)
            if v in steps and re.match(r'\.(auto|new|last)\.[01]',m.group(2)):
                rest=[v]+m.group(2)[1:].split('.')
                out+='.'.join(autos(rest,1,steps[v])); pos=m.end(); continue
            if v in env and m.group(2)!='' or (v in env and env[v] is not None):
                e=env[v]
                if isinstance(e,tuple):
                    r=path_from(v,m.group(2),e[1],e[2])
                else: r=path_from(v,m.group(2),e,e)
                if isinstance(r,tuple):
                    _,vv,i=r
                    # which helper takes it? look back
                    hm=re.search(r"(?<![\w.'-])("+W+r")\s*\(?\s*$",out)
                    base=e[1] if isinstance(e,tuple) else e
                    target=i
                    if hm and hm.group(1) in helper: target=helper[hm.group(1)]
                    elif result is not None and out.strip()=='': target=result
                    q=base;n=0
                    while q is not None and q!=target: q=newparent[q];n+=1
                    if q is None:
                        said.append(f'{v}{m.group(2)}: place {places[target][0]} is not above {places[base][0]}'); n=m.group(2).count('before')
                    out+=vv+'.before'*n
                else: out+=r
            else: out+=m.group(0)
            pos=m.end()
        return out+s[pos:]
    def path_from(v,comps,base,at):
        cs=re.findall(r"\.((?:"+W+r")|\d+)",comps)
        i=at;k=0
        while k<len(cs) and cs[k]=='before':
            i=oldparent[i] if i is not None else None;k+=1
        if i is None: i=0
        rest=cs[k:]
        if not rest: return ('PLACE',v,i)
        rest[0]={'well-formed':'well_formed','type-inv':'type_inv','pre':'requires'}.get(rest[0],rest[0])
        if rest[0] in ('args','requires','well_formed','utf8','ranges','type_inv'): return v+'.'+'.'.join(rest)
        j=find_step(base,i,rest[0])
        if j is None:
            said.append(f'{v}{comps}: no step {rest[0]} at {places[i][0]}'); return v+'.'+'.'.join(rest)
        chain=[];q=base
        while q is not None: chain.append(q);q=newparent[q]
        if mid[base] and j in chain and mid[j]:
            own=newname[j][0].lower()+newname[j][1:] if places[j][2][0].startswith('match') else places[j][2][1]
            return v+'.'+'.'.join([own]+rest[1:])
        def arm(q):
            for nf,os_,pth in arms[q][2]:
                if alike(os_) in (alike(rest[0]),alike(re.sub(r'_(holds|lem)$','',rest[0]))) and rest[1:1+len(pth)]==pth:
                    return v+'.'+arms[q][0]+'.'+'.'.join([nf]+rest[1+len(pth):])
        if len(rest)>2 and rest[1] in ('auto','new','last') and rest[2].isdigit(): rest=autos(rest,1,who(j))
        if j in chain and not arms[j]:
            return v+'.'+'.'.join([esc(places[j][2][1])]+rest[1:])
        for q in chain:
            if arms[q]:
                z=q
                for _ in range(arms[q][1]):
                    if z==j:
                        r=arm(q)
                        if r: return r
                        said.append(f'{v}{comps}: arm {json.dumps(arms[q])} has no {rest}')
                        return v+'.'+arms[q][0]+'.'+'.'.join(rest[1:])
                    z=oldparent[z]
        said.append(f'{v}{comps}: step {rest[0]} at {places[j][0]} is not in reach'); return v+'.'+'.'.join([places[j][2][1]]+rest[1:])
    def who(j):
        """The names that an auto of the step of place j goes by."""
        if places[j][3]: return x['params'].get(places[j][3])
        for a,vs in x['loops']:
            if alike(a[0])==alike(places[j][2][0]): return vs
        return None
    def autos(rest,at,names):
        k=at+1;n=0
        while k<len(rest) and rest[k]=='1': n+=1;k+=1
        if names is None or k>=len(rest) or rest[k]!='0' or n>=len(names):
            if k<len(rest) and not rest[k].isdigit(): return rest
            if names is not None and n>=len(names)-1 and k==len(rest): return rest[:at+1]+[names[-1]]
            said.append('auto: '+'.'.join(rest)+' '+str(names)); return rest
        return rest[:at+1]+[names[n]]+rest[k+1:]
    answers={} # new need -> local name
    out=[]
    for b in blocks:
        s='\n'.join(b)
        m=re.search(r"^(?:pub |abbrev )*("+W+r")\s*:\s*tie\.Need-("+W+r")",s,re.M)
        if m:
            n=need_key(needs,m.group(2))
            if n is None:
                continue
            if n in answers: said.append('twice: '+n)
            answers[n]=m.group(1)
            s=s.replace('tie.Need-'+m.group(2),'tie.Need-'+n,1)
            pl=askedold.get(n)
            # clauses
            head,_,body=s.partition('\n')
            # var of the clause
            cm=re.search(r"^"+re.escape(m.group(1))+r"((?:\s+(?:\{[^}]*\}|"+W+r"))*)\s*=",s,re.M)
            if cm:
                vs=re.findall(W,cm.group(1))
                var=vs[0] if vs else None
                pre,post=s[:cm.end()],s[cm.end():]
                if var and pl is not None: post=turn_body(post,var,pl)
                s=pre+post
            out.append(s);continue
        m=re.search(r"^(?:pub |abbrev |unfoldable )*("+W+r")\s*:(.*)",s,re.M)
        if m and m.group(1) in helper:
            pl=helper[m.group(1)]
            # type: from the binder on
            hm=re.search(r"\((\w+) : (?:tie\."+W+"|Dom "+W+")",s)
            if not hm:
                cm=re.search(r"^"+re.escape(m.group(1))+r"((?:\s+(?:\{[^}]*\}|"+W+r"))*)\s*=",s,re.M)
                v2=(re.findall(W,cm.group(1)) if cm else [])[:1]
                if v2: s=s[:cm.end()]+turn_body(s[cm.end():],v2[0],pl,helperres.get(m.group(1)))
                out.append(s); continue
            var=hm.group(1)
            cm=re.search(r"^"+re.escape(m.group(1))+r"((?:\s+(?:\{[^}]*\}|"+W+r"))*)\s*=",s,re.M)
            if cm:
                typ=s[hm.end():cm.start()]; pre=s[:hm.end()]
                vs=re.findall(W,cm.group(1)); v2=vs[0] if vs else var
                s=pre+turn_body(typ,var,pl)+s[cm.start():cm.end()]+turn_body(s[cm.end():],v2,pl)
        out.append(s)
    t2='\n'.join(out)
    # place and loop names
    def tie(m):
        w=m.group(1)
        if w.startswith('Need-') or w in('spec','close'): return m.group(0)
        if alike(w) in placeold: return 'tie.'+newname[placeold[alike(w)]]
        mm=re.match(r"(invariant|decreases)-(.*)",w)
        if mm and alike(mm.group(2)) in loops: return f'tie.{mm.group(1)}-'+loops[alike(mm.group(2))]
        said.append('tie.'+w+' unknown'); return m.group(0)
    t2=re.sub(r"tie\.("+W+")",tie,t2)
    # the last declaration
    m=re.search(r"\(tie\.spec\b(.*?)\)\s*$",t2,re.S)
    if not m: said.append('no spec list'); return None
    old=m.group(1).split()
    invs=[o for o in old if re.match(r"(invariant|decreases)",o)]
    lst=list(invs);extra=''
    for n in newneeds:
        if n in answers: lst.append(answers[n])
        else:
            nm='n-'+n
            lst.append(nm); said.append('new need '+n)
            extra+=f"{nm} : tie.Need-{n} {' '.join(invs)}\n{nm} c = search rules\n\n".replace(' \n','\n')
    t2=t2[:m.start()]+'(tie.spec '+' '.join(lst)+')'+t2[m.end():].rstrip()+'\n'
    t2=re.sub(r"pub "+W+r" : (\{M : Type 1\} → statement M)\n"+W+" =",lambda mm:f"{extra}pub {fn}_spec : {mm.group(1)}\n{fn}_spec =",t2)
    if extra and 'borrow.Author.Rules' not in t2: t2=re.sub(r"(?m)^use ",'use borrow.Author.Rules.{rules}\nuse ',t2,count=1)
    t2=t2.replace('.type-inv','.type_inv').replace('.well-formed','.well_formed')
    t2=re.sub(r"not_?-?(?:true|false) _ ([a-zA-Z']+\.if-[\w'-]+\.(?:true|false))",r"\1",t2)
    kept={c for p_ in places for c in (p_[2][1],)}|{c for a_ in arms if a_ for c in [a_[0]]+[f_[0] for f_ in a_[2]]}
    t2=re.sub(r"(?<=\.)([a-z][a-z0-9]*(?:-[a-z0-9]+)+)(?![\w'-])",lambda m: m.group(1).replace('-','_') if m.group(1).replace('-','_') in SRC and m.group(1) not in kept else m.group(1),t2)
    t2=re.sub(r"\n{3,}","\n\n",t2)
    open(path,'w',encoding='utf-8').write(t2)
    return said
for k,x in D.items():
    if not isinstance(x,dict) or 'needs' not in x: continue
    m=re.match(r"Rattle-"+cname+r"-proofs\.(.*)\.Lts$",k)
    if not m: continue
    p=m.group(1)
    f=os.path.join(crate,'proofs',p.replace('.','/'),'Proof.antt')
    if only and p not in only: continue
    if not os.path.exists(f): continue
    try: said=convert(f,x,p.split('.')[-1])
    except Exception as e:
        import traceback; traceback.print_exc(); print('FAILED',f,e); continue
    if said: print(p,*['\n   '+s for s in said])
