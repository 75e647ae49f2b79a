"""Counts what stands in the contracts of three or more functions, and parameters that travel together."""
import re,os,sys,itertools,collections
root=sys.argv[1] if len(sys.argv)>1 else 'crates'
facts=collections.defaultdict(list); pairs=collections.defaultdict(list)
for d,_,fs in os.walk(root):
    if '/src' not in d or '/out/' in d: continue
    for f in fs:
        if not f.endswith('.rt'): continue
        p=os.path.join(d,f); s=open(p).read()
        for m in re.finditer(r'\bfn (\w+)[^{;]*?\(([^{]*?)\)(?: -> [^{]*?)?\n((?:\s+(?:requires|ensures)[^\n]*\n(?:\s+[→×(][^\n]*\n)*)+)',s):
            name=m.group(1); params=m.group(2)
            ps=[x.strip().split(':')[0].replace('mut ','').strip() for x in re.split(r',(?![^<\[(]*[>\])])',params) if x.strip()]
            ps=[x for x in ps if x and x not in('&self','&mut self','self','mut self','rt')]
            for a,b in itertools.combinations(ps,2): pairs[(a,b)].append(p+':'+name)
            parts=set()
            for c in re.findall(r'(?:requires|ensures)[^{]*\{(.*)\}',m.group(3)):
                for part in re.split(r' → | × ',c):
                    part=re.sub(r'\b(self|store|all|words|leaf|node)\.(now|old|new)\b',r'\1',part.strip(' (){}'))
                    parts.add(part)
            for part in parts: facts[part].append(p+':'+name)
print('facts in three or more contracts')
for k,v in sorted(facts.items(),key=lambda x:-len(x[1])):
    if len(v)>=3: print(len(v),k,'|',' '.join(sorted(set(x.split('/')[1] for x in v))))
print('parameters together in three or more functions')
for k,v in sorted(pairs.items(),key=lambda x:-len(x[1])):
    if len(v)>=3: print(len(v),k,'|',' '.join(sorted(set(x.split('/')[1] for x in v))))
