# Facts that stand in the `requires` of three or more functions, most often first: docs/DESIGN-PASS.md counts them.
import re, glob, collections
count = collections.Counter(); where = collections.defaultdict(set)
pars = collections.Counter()
for path in sorted(glob.glob('crates/*/src/*.rt')):
    crate = path.split('/')[1]
    if crate == 'cyrs_c': continue
    text = open(path).read()
    for fn in re.split(r'\n(?= *(?:pub(?:\(crate\))? )?(?:extern "C" )?fn )', text)[1:]:
        m = re.match(r' *(?:pub(?:\(crate\))? )?(?:extern "C" )?fn (\w+)', fn)
        name = m.group(1)
        head = re.split(r'\n *\{', fn, maxsplit=1)[0]
        sig = re.split(r'\n\s+(?:requires|ensures)', head)[0]
        names = tuple(re.findall(r'(\w+): ', sig))
        for c in re.findall(r'requires(?: \w+)? \{ (.*?) \}(?=\n|$)', head, re.S):
            c = re.sub(r'\s+', ' ', c)
            parts, depth, cur, i = [], 0, '', 0
            while i < len(c):
                ch = c[i]
                depth += ch in '([{'; depth -= ch in ')]}'
                if depth == 0 and c[i:i+3] == ' × ':
                    parts.append(cur); cur = ''; i += 3; continue
                cur += ch; i += 1
            parts.append(cur)
            for p in parts:
                p = p.strip()
                if p.startswith('(') and p.endswith(')'): p = p[1:-1]
                count[p] += 1; where[p].add(crate + '::' + name)
print('-- facts in the requires of three or more functions')
for c, n in count.most_common():
    if n >= 3: print(n, c, '|', ' '.join(sorted(where[c])))
