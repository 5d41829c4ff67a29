#!/usr/bin/env python3
"""turn_walks.py CRATE_FOLDER NAMES.json [FUNCTION..]: turns proofs/F/Proof.antt, a walk of the older Rattle as port.py leaves it, to Invariants.antt and Answers.antt.

NAMES.json is DIR/names.json, which `rt check --generated DIR --old-names` writes in the crate's folder. Answers that the check refuses are taken out by hand then:
it finds many of them alone, and what is left wants another name of a fact, mostly. Functions that call themselves it leaves.
"""
import json, os, re, sys

def word(n): return r"(?<![\w'-])%s(?![\w'-])" % re.escape(n)

def norm(n): return n.lower().replace('-', '_')

def blocks(text):
    out, cur = [], []
    for line in text.split('\n'):
        if line and not line[0].isspace() and cur and cur[-1] == '':
            out.append(cur); cur = []
        cur.append(line)
    if cur: out.append(cur)
    return ['\n'.join(b).rstrip() for b in out]

SIG = re.compile(r"^(?:(?:pub|abbrev|unfoldable) )*([^\s:(){}]+) : ", re.M)

def recorded(body, fields, bad, name):
    """The tuple at the end of a term as a record of these fields."""
    s = body.rstrip()
    if s.endswith(','): pass
    def whole():
        """The last term is a pair as it is: its parts become the fields."""
        cut, depth = 0, 0
        for m in re.finditer(r"[({\[]|[)}\]]|\bin(?=\s)", s):
            if m[0] in '({[': depth += 1
            elif m[0] in ')}]': depth -= 1
            elif depth == 0: cut = m.end()
        last = s[cut:].strip()
        at = ['0'] if len(fields) == 2 else None
        parts, path = [], ''
        for k, f in enumerate(fields):
            parts.append('%s = r%s' % (f, path + ('.0' if k < len(fields) - 1 else '')))
            path += '.1'
        return s[:cut] + '\n    let r = %s in\n    record { %s }' % (last, ' '.join(x + ';' for x in parts))
    if not s.endswith(')'):
        return whole()
    depth = 0
    for i in range(len(s) - 1, -1, -1):
        if s[i] in ')}]': depth += 1
        if s[i] in '({[':
            depth -= 1
            if depth == 0: break
    inner = s[i + 1:-1]
    parts, cur, depth = [], '', 0
    for ch in inner:
        if ch in '({[': depth += 1
        if ch in ')}]': depth -= 1
        if ch == ',' and depth == 0: parts.append(cur.strip()); cur = ''
        else: cur += ch
    if cur.strip(): parts.append(cur.strip())
    while 1 < len(parts) < len(fields) and parts[-1].startswith('(') and parts[-1].endswith(')'):
        last, more, cur, depth = parts.pop()[1:-1], [], '', 0
        for ch in last:
            if ch in '({[': depth += 1
            if ch in ')}]': depth -= 1
            if ch == ',' and depth == 0: more.append(cur.strip()); cur = ''
            else: cur += ch
        parts += more + [cur.strip()] if cur.strip() else more
        if len(more) == 0: break
    before = s[:i].rstrip()
    if len(parts) != len(fields) or not (before == '' or re.search(r"(\bin|[=.↦])$", before)):
        return whole()
    return s[:i] + 'record { ' + ' '.join('%s = %s;' % p for p in zip(fields, parts)) + ' }'


def nested(names, rest):
    """A path of digits into clauses that the older Rattle nested in pairs, by the clauses' names."""
    if not rest or not rest[0].isdigit(): return rest
    if len(names) == 2 or int(rest[0]) > 1: return [names[int(rest[0])]] + rest[1:] if int(rest[0]) < len(names) else rest
    i = 0
    while rest and rest[0] in ('0', '1') and i < len(names) - 1:
        d, rest = rest[0], rest[1:]
        if d == '0': return [names[i]] + rest
        i += 1
    return [names[i]] + rest


class Fn:
    def __init__(self, crate, path, text, info):
        self.crate, self.path, self.info = crate, path, info
        bs = blocks(text)
        head = bs[0].split('\n')
        # header: comments and uses up to the first other line
        self.comments = []
        self.uses = []
        rest = []
        for b in bs:
            ls = b.split('\n')
            if all(l.startswith('use ') or l.startswith('--') or l == '' for l in ls) and not rest:
                for l in ls:
                    if l.startswith('use '): self.uses.append(l)
                    elif l: self.comments.append(l)
            else:
                # uses may be in the same block
                while ls and (ls[0].startswith('use ')):
                    self.uses.append(ls.pop(0))
                rest.append('\n'.join(ls))
        self.blocks = rest
        self.places = {p[0]: p for p in info['places']}
        self.branch_names = set()
        self.index = {p[0]: i for i, p in enumerate(info['places'])}
        spec = [b for b in rest if 'tie.close' in b or 'tie.spec' in b]
        if not spec: raise ValueError('no spec')
        m = re.search(r"tie\.spec\b([\s\S]*)$", spec[0])
        names = re.findall(r"[^\s()]+", m[1])
        # where the spec takes its arguments in parentheses as whole, closing ones are dropped above
        self.list = names
        self.rest = [b for b in rest if b is not spec[0]]

    def pre(self):
        pre = self.info['pre']
        return pre['fields'] if isinstance(pre, dict) else list(pre)

    def named(self, b):
        m = SIG.search(b)
        return m[1] if m else None

    def chain(self, place):
        out, p = [], place
        while p is not None:
            out.append(p); p = self.places[p][1]
        return out

    def step(self, place, ups, field):
        """The place so many steps up that has the field, or the nearest to it that has: the older Rattle had some places more."""
        chain = self.chain(place)
        found = [i for i, p in enumerate(chain) if norm(self.places[p][2][0]) == norm(field)]
        if not found: return None
        i = min(found, key=lambda i: (abs(i - ups), i))
        return chain[i], i == ups

    def paths(self, body, var, place, bad):
        """Respells v.before..FIELD; aliases of places are followed. An alias is how many steps up from the place it is."""
        alias = {var: 0}
        def let(m):
            alias[m[1]] = alias[m[2]] + m[3].count('.before')
            return ''
        while True:
            new = re.sub(r"let ([\w']+) = (%s)((?:\.before)*) in(?:\n\s*| )" % '|'.join(map(re.escape, alias)), let, body, count=1)
            if new == body: break
            body = new
        def path(m):
            v, ups, f = m[1], alias[m[1]] + m[2].count('.before'), m[3]
            rest = m[4].split('.')[1:]
            if f in ('args', 'requires', 'ranges', 'pre'):
                n = 'requires' if f == 'pre' else f
                if n == 'requires' and self.info['pre']: rest = nested(self.pre(), rest)
                return '.'.join([var, n] + rest)
            s = self.step(place, ups, f)
            if s is None:
                bad.append(m[0] + ' from ' + place)
                return m[0]
            p = s[0]
            n = self.places[p][2][1]
            at = self.index[p]
            arm = self.info['arms'][at]
            if arm:
                for new, old, below in arm[2]:
                    if norm(old) == norm(f) and [norm(x) for x in rest[:len(below)]] == [norm(x) for x in below]:
                        rest = rest[len(below):]
                        n = (arm[0] + '.' + new if new.startswith(arm[0]) else n + '.' + new)
                        break
            callee = self.places[p][3]
            if callee and rest and rest[0] in ('auto', 'new', 'last') and callee in self.info['params']:
                k = 1
                while k < len(rest) and rest[k] == '1': k += 1
                ps = self.info['params'][callee]
                if k < len(rest) and rest[k] == '0' and k - 1 < len(ps): rest = [rest[0], ps[k - 1]] + rest[k + 1:]
            cl = self.info['clauses'][at]
            if cl and rest[:1] == ['ensures']: rest = ['ensures'] + nested(cl['fields'], rest[1:])
            return '.'.join([var, n] + rest)
        names = '|'.join(sorted(map(re.escape, alias), key=len, reverse=True))
        body = re.sub(r"(?<![\w.'-])(%s)((?:\.before)*)\.([A-Za-z_][\w'-]*)((?:\.[\w'-]+)*)" % names, lambda m: m[0] if m[3] == 'before' else path(m), body)
        for m in re.finditer(r"(?<![\w.'-])(%s)((?:\.before)*)(?![\w.'-])" % names, body): bad.append('bare ' + m[0])
        steps = {q[2][1]: q for q in self.info['places'] if q[3]}
        for m in list(re.finditer(r"let ([\w']+) = %s\.([\w'-]+) in" % re.escape(var), body)):
            if m[2] not in steps: continue
            q = steps[m[2]]
            def member(x):
                rest = x[1].split('.')[1:]
                if rest[0] in ('auto', 'new', 'last') and q[3] in self.info['params']:
                    k = 1
                    while k < len(rest) and rest[k] == '1': k += 1
                    ps = self.info['params'][q[3]]
                    if k < len(rest) and rest[k] == '0' and k - 1 < len(ps): rest = [rest[0], ps[k - 1]] + rest[k + 1:]
                cl = self.info['clauses'][self.index[q[0]]]
                if cl and rest[0] == 'ensures': rest = ['ensures'] + nested(cl['fields'], rest[1:])
                return '.'.join([m[1]] + rest)
            body = re.sub(r"(?<![\w.'-])%s((?:\.[\w'-]+)+)" % re.escape(m[1]), member, body)
        for m in list(re.finditer(r"let ([\w']+) = %s\.([\w'-]+)\.ensures in" % re.escape(var), body)):
            if m[2] not in steps: continue
            cl = self.info['clauses'][self.index[steps[m[2]][0]]]
            if cl: body = re.sub(r"(?<![\w.'-])%s((?:\.\d+)+)" % re.escape(m[1]), lambda x: '.'.join([m[1]] + nested(cl['fields'], x[1].split('.')[1:])), body)
        loops = [l[0][1] for l in self.info['loops']]
        here = ['%s\\.%s' % (re.escape(var), re.escape(l)) for l in loops]
        here += [re.escape(m[1]) for m in re.finditer(r"let ([\w']+) = %s\.([\w'-]+) in" % re.escape(var), body) if m[2] in loops]
        for h in here:
            body = re.sub(r"to_z w32 (%s\.[\w'-]+)" % h, r"to_z w32 \1-bits", body)
        if self.info['pre']:
            for m in list(re.finditer(r"let ([\w']+) = %s\.requires in" % re.escape(var), body)):
                names = self.pre()
                body = re.sub(r"(?<![\w.'-])%s((?:\.\d+)+)" % re.escape(m[1]), lambda x: '.'.join([m[1]] + nested(names, x[1].split('.')[1:])), body)
        body = re.sub(r"(?<![\w.'-])(?:not-true|not-false|on|off) (?:[\w.'-]+|\([^()]*\)|_) ([\w']+\.if-not-[\w.'-]+\.(?:true|false))", r"\1", body)
        body = re.sub(r"\.ptr\b", ".ref_ptr", body)
        body = re.sub(r"\.type-inv\b", ".type_inv", body)
        return self.branches(body)

    def branches(self, body):
        while (i := body.find('⊎_elim')) >= 0:
            args, j = [], i + len('⊎_elim')
            while len(args) < 3 and j < len(body):
                while j < len(body) and body[j].isspace(): j += 1
                k = j
                if body[j] == '(':
                    depth = 0
                    while True:
                        depth += body[k] in '([{'
                        depth -= body[k] in ')]}'
                        k += 1
                        if depth == 0: break
                else:
                    while k < len(body) and not body[k].isspace() and body[k] not in '(),;]}': k += 1
                args.append(body[j:k]); j = k
            m = len(args) == 3 and re.fullmatch(r"(.*)\.(if-[^.]+)\.branch", args[2])
            l = [re.fullmatch(r"\(λ ([\w']+)\. ([\s\S]*)\)", a) for a in args[:2]]
            if not m or not all(l):
                body = body[:i] + '⊎__elim' + body[i + len('⊎_elim'):]
                continue
            n = m[2][3:]
            out = []
            for word, q, old, new in (('then', l[0], 'taken', 'true'), ('else', l[1], 'left', 'false')):
                x = re.sub(r"(?<![\w.'-])%s\.0\.%s\b" % (re.escape(q[1]), old), '%s.%s.%s' % (q[1], m[2], new), q[2])
                x = re.sub(r"(?<![\w.'-])%s\.0\.0\.%s\b" % (re.escape(q[1]), old), '%s.%s.%s' % (q[1], m[2], new), x)
                out.append('%s-%s %s ↦ %s' % (word, n, q[1], x))
                self.branch_names.add('%s-%s' % (word, n))
            body = body[:i] + 'elim %s [ %s | %s ]' % (args[2], out[0], out[1]) + body[j:]
        return body.replace('⊎__elim', '⊎_elim')

    def invariant(self, b, i, kind, bad):
        (old, new), vs = self.info['loops'][i]
        changed = self.info['changed'][i]
        name = self.named(b)
        m = re.search(r"^(?:abbrev )?%s((?: [^\s=]+)*) =([\s\S]*)\Z" % re.escape(name), b[b.index('\n'):].lstrip('\n'), re.M)
        params = m[1].split()
        body = m[2]
        want = ['l.initial.' + v if c else 'l.' + v for v, c in zip(vs, changed)] + ['l.' + v for v, c in zip(vs, changed) if c]
        if len(params) != len(want): bad.append('parameters %s for %s' % (params, want))
        table = {p: w for p, w in zip(params, want) if p != '_'}
        pat = r"(?<!λ )(?<![\w.'₀-])(%s)(?![\w'₀-])(?! : )" % '|'.join(sorted(map(re.escape, table), key=len, reverse=True))
        body = re.sub(pat, lambda x: table[x[1]], body)
        body = re.sub(r"\(to_z w32 (l\.[\w.-]+)\)", r"\1", body)
        body = re.sub(r"to_z w32 (l\.[\w.-]+)", r"\1", body)
        unf = re.findall(r"^unfolding .*$", b, re.M)
        comm = [l for l in b.split('\n') if l.startswith('--')]
        n = '%s-%s' % (kind, new)
        return '\n'.join(comm + ['abbrev pub %s : goal.%s' % (n, n)] + unf + ['%s l =%s' % (n, body)])

    def answer(self, b, i, bad):
        name = self.named(b)
        new = self.info['needs'][i][1]
        place = self.info['asked_at'][i][0]
        comm = [l for l in b.split('\n') if l.startswith('--')]
        unf = re.findall(r"^unfolding .*$", b, re.M)
        m = re.search(r"^%s((?: [^\s=:]+)+) =([\s\S]*)\Z" % re.escape(name), b, re.M)
        var = m[1].split()[0]
        body = m[2]
        if body.strip() == 'search rules': return None
        extra = [e for e in m[1].split()[1:] if e not in ('κs', '_')]
        if extra: bad.append('parameters ' + str(extra))
        more = ''.join(' ' + e for e in m[1].split()[1:] if e != 'κs' and not (e == '_' and not extra))
        self.unfoldings = set(unf)
        alias = [var] + re.findall(r"let ([\w']+) = [\w']+(?:\.before)* in", body)
        body, used = self.asked_helpers(body, alias)
        body = self.paths(body, var, place, bad)
        if used:
            body = '\n    ' + self.lets(used, var, bad, []) + body.strip()
            words = [w for u in sorted(self.unfoldings) for w in u.split()[1:]]
            unf = ['unfolding ' + ' '.join(dict.fromkeys(words))] if words else []
        asked = self.info['asked'].get(self.info['needs'][i][0])
        if asked: body = recorded(body, asked, bad, new)
        return '\n'.join(comm + ['pub %s : goal.%s' % (new, new)] + unf + ['%s %s%s =%s' % (new, var, more, body)])

    def helper(self, b, bad):
        """(name, place, rest of the type, variable, parameters, body, unfolding) of a law about a place."""
        name = self.named(b)
        m = re.match(r"(?:--.*\n)*(?:abbrev )?%s : (?:\((\w+) : tie\.([\w'-]+)[^()]*\)|tie\.([\w'-]+)[^→\n]*)\s*([\s\S]*?)\n((?:unfolding .*\n)?)(?=%s(?: |$))" % (re.escape(name), re.escape(name)), b)
        if not m: return None
        d = re.search(r"^%s((?: [^\s=:]+)+) =([\s\S]*)\Z" % re.escape(name), b, re.M)
        if not d or re.search(r"^\s*where", d[2], re.M): return None
        place = next((q for q in self.places if norm(q) == norm(m[2] or m[3])), None)
        if place is None: return None
        rest = re.sub(r"^→\s*", "", m[4].strip())
        ps = d[1].split()
        return name, place, m[1] or ps[0], rest, ps[0], ps[1:], d[2].strip(), m[5].strip()

    def asked_helpers(self, text, names):
        """Calls of helpers at a place lose that argument; which were called."""
        used = []
        for h in self.helpers:
            pat = r"(?<![\w.'-])%s (?:%s)(?:\.before)*(?![\w.'-])" % (re.escape(h), '|'.join(map(re.escape, names)))
            if re.search(pat, text):
                used.append(h)
                text = re.sub(pat, h, text)
            pat = r"(?<![\w.'-])%s \((?:%s)(?:\.before)*\)" % (re.escape(h), '|'.join(map(re.escape, names)))
            if re.search(pat, text):
                used.append(h)
                text = re.sub(pat, h, text)
        return text, used

    def lets(self, used, var, bad, done):
        out = ''
        for h in used:
            if h in done: continue
            done.append(h)
            name, place, tv, rest, v, ps, body, unf = self.helpers[h]
            if unf: self.unfoldings.add(unf)
            alias = [v] + re.findall(r"let ([\w']+) = [\w']+(?:\.before)* in", body)
            body, u1 = self.asked_helpers(body, alias)
            rest, u2 = self.asked_helpers(rest, [tv])
            out += self.lets(u1 + u2, var, bad, done)
            fix = lambda x, w: re.sub(r"(?<![\w.'-])%s(?=\.)" % re.escape(w), var, self.paths(x, w, place, bad))
            body = fix(body, v)
            rest = fix(rest, tv)
            if ps: body = 'λ %s. %s' % (' '.join(ps), body)
            out += 'let %s : %s = %s in\n    ' % (name, rest, body)
        return out

    def turn(self):
        bad = []
        self.helpers = {}
        inv, ans, other = [], [], []
        nl = len(self.info['loops'])
        by = {self.named(b): b for b in self.rest}
        ivs = [n for n in self.list if n.startswith('invariant-') or n.startswith('decreases-')]
        needs = [n for n in self.list if n not in ivs]
        if len(ivs) != 2 * nl: bad.append('loops: %s for %d' % (ivs, nl))
        if len(needs) != len(self.info['needs']):
            bad.append('needs: %s for %s' % (needs, [n[0] for n in self.info['needs']]))
        index = {n: i for i, n in enumerate(needs)}
        for b in self.rest:
            n = self.named(b)
            if n not in self.list and re.search(r": (?:\(\w+ : )?tie\.(?!Need)", b):
                h = self.helper(b, bad)
                if h: self.helpers[n] = h
        for b in self.rest:
            n = self.named(b)
            if n in ivs:
                i = ivs.index(n) // 2
                inv.append(self.invariant(b, i, 'invariant' if n.startswith('invariant') else 'decreases', bad))
            elif n in index and index[n] < len(self.info['needs']):
                a = self.answer(b, index[n], bad)
                if a: ans.append(a)
            elif n in self.helpers: pass
            else:
                other.append(b); ans.append(b)
                if 'tie.' in b: bad.append('helper %s' % n)
        # a law that an invariant cites stands beside it
        self.shared = []
        again = True
        while again:
            again = False
            text = '\n'.join(inv)
            for b in list(other):
                n = self.named(b)
                if n and b in ans and re.search(word(n), text):
                    ans.remove(b); other.remove(b); self.shared.append(n); again = True
                    head = re.sub(r"^((?:--.*\n)*)abbrev (?!pub )", r"\1abbrev pub ", b)
                    if head == b and not re.search(r"^(?:--.*\n)*(?:abbrev )?pub ", b): head = re.sub(r"^((?:--.*\n)*)", r"\1pub ", b)
                    inv.insert(0, head)
        return inv, ans, bad

def main():
    folder, names = sys.argv[1], json.load(open(sys.argv[2]))
    crate = os.path.basename(os.path.realpath(folder))
    only = sys.argv[3:]
    count = 0
    for d, _, fs in sorted(os.walk(os.path.join(folder, 'proofs'))):
        if 'Proof.antt' not in fs: continue
        path = os.path.relpath(d, os.path.join(folder, 'proofs')).replace(os.sep, '.')
        if only and path not in only: continue
        key = 'Rattle-%s-proofs.%s.Lts' % (crate, path)
        if key not in names:
            print('%s: no names (%s)' % (path, key)); continue
        try:
            f = Fn(crate, path, open(os.path.join(d, 'Proof.antt')).read(), names[key])
            inv, ans, bad = f.turn()
        except (ValueError, AttributeError, TypeError, KeyError) as e:
            print('%s: NOT TURNED: %r' % (path, e)); continue
        for x in bad: print('%s: look: %s' % (path, x.replace('\n', ' ')[:200]))
        uses = [u for u in f.uses if '.Statement.{' not in u and ' as tie' not in u]
        mod = 'Rattle.%s.proofs.%s' % (crate, path)
        if inv:
            open(os.path.join(d, 'Invariants.antt'), 'w').write('\n'.join(uses + ['use %s.Given as goal' % mod]) + '\n\n' + '\n\n'.join(inv) + '\n')
        if ans:
            open(os.path.join(d, 'Answers.antt'), 'w').write('\n'.join(f.comments + uses + ['use %s.Goals as goal' % mod] + (['use %s.Invariants.{%s}' % (mod, ', '.join(f.shared))] if f.shared and any(re.search(word(s), a) for s in f.shared for a in ans) else []) + (['use %s.Goals.{%s}' % (mod, ', '.join(sorted(f.branch_names)))] if f.branch_names else [])) + '\n\n' + '\n\n'.join(ans) + '\n')
        os.remove(os.path.join(d, 'Proof.antt'))
        count += 1
    print('turned: %d' % count)

main()
