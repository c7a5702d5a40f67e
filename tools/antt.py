"""antt.py: reads the definitions of a Rattle project (crates/*/specs/*.antt) and compiles them to Python.

The definitions are used as a first-order functional language, with functions as values where they are passed.  Types are
not looked at, so what is computed is what the clauses say.  Only what is asked for is read and compiled, with all that it
cites.  The words of std that the project uses are given here by hand (NATIVE), with the meaning that the kit's definitions
have; every other kit definition is read from the kit's folder when it is cited.

    project = Project('..')
    f = project.get('tx_model.World.possible')      # the definition `possible` of crates/tx_model/specs/World.antt
    f(world)

Values
    N, Z            int                             Bool            bool
    []              NIL                             x :: xs         Cons(x, xs), fields a0 and a1
    None, Some x    None, Some(x), field a0         Ok x, Err e     Ok(x), Err(e), field a0
    Less, Equal, Greater    -1, 0, 1                (a, b, c)       tuple; a record with the one field 0 is a tuple of one
    a record        an object of a class made for its set of field names; the field x is the attribute f_x
    an enum's value an object of a class made for the variant, fields a0, a1 ..; a variant without fields is one object
    a function      Fun(python function, number of arguments)

Propositions (definitions in Type 0, and records of propositions) compile to Python functions that give a bool, where they
can be tested: equality is that of the values, x is and, ⊎ is or, -> is implication, and a quantifier over a type named in
Project.domains goes over the values that stand there.
"""
import os
import re
import shutil

from reader import END, Module, Parser, tokens_of
from values import (AnttError, CONSTANT, Cons, Err, Fun, NATIVE, NIL, OVERRIDE, Ok, Some, ap1, ap2, ap3, attr, call, from_list,
                    list_text, same, show, text_list, to_list)

KIT = os.path.join(os.path.dirname(os.path.dirname(os.path.realpath(shutil.which('rt') or '/'))), 'rattle')
__all__ = ['AnttError', 'Cons', 'Definition', 'Err', 'Fun', 'NIL', 'Ok', 'Project', 'Some', 'call', 'from_list', 'list_text', 'show',
           'text_list', 'to_list']


class Definition:
    def __init__(self, module, name, py):
        self.module, self.name, self.py, self.arity = module, name, py, None


def free_in(e, name):
    """Whether the name is used in the expression (shadowing is not looked at: a needless binding costs little)."""
    if isinstance(e, tuple):
        return e == ('var', name) or any(free_in(x, name) for x in e)
    return isinstance(e, list) and any(free_in(x, name) for x in e)


class Project:
    """The definitions of a project at a folder; `memo` names definitions whose results are kept by the identity of their
    arguments (for statements that compute the same thing again and again)."""
    def __init__(self, root, memo=(), kit=KIT, plain_tables=False):
        self.root, self.kit, self.memo = root, kit, set(memo)
        self.modules, self.defs, self.queue, self.enums, self.ctors = {}, {}, [], {}, {}
        self.shapes, self.updates, self.lines, self.kept = {}, set(), [], {}
        self.override = {k: v for k, v in OVERRIDE.items() if not (plain_tables and k[0].startswith('ordered_'))}
        self.space = {'NIL': NIL, 'Cons': Cons, 'Some': Some, 'Ok': Ok, 'Err': Err, 'Fun': Fun, 'call': call, 'ap1': ap1,
                      'ap2': ap2, 'ap3': ap3, 'no_clause': no_clause, 'once': once}
        self.domains = {'ℕ': range(8), 'Bool': (False, True), 'TxId': (), 'NodeId': (), 'Key': (), 'TopVer': (), 'Member': ()}
        self.space.update(domains=self.domains, same=same)
        self.extra = {}
        self.counter = 0
        for name, n in NATIVE.items():
            if n.fn:
                self.space[n.fn.__name__] = n.fn

    # -- modules and names

    def module_path(self, name):
        """The file of a module as it is cited, `Rattle.CRATE.specs.A.B`, and its short name, `CRATE.A.B`."""
        if name in self.extra:
            return self.extra[name]
        parts = name.split('.')
        if len(parts) < 4 or parts[0] != 'Rattle' or parts[2] != 'specs' or parts[3] == 'declared':
            return None
        for base in (os.path.join(self.root, 'crates'), self.kit):
            for crate in (parts[1], 'core') if parts[1] == 'std' else (parts[1],):
                path = os.path.join(base, crate, 'specs', *parts[3:]) + '.antt'
                if os.path.exists(path):
                    return path
        return None

    def module(self, name):
        m = self.modules.get(name)
        if m is None:
            path = self.module_path(name)
            if path is None:
                raise AnttError('no module ' + name)
            m = self.modules[name] = Module(name, path)
        return m

    def variant(self, path, name):
        """The class of an enum's variant, `path` being the module in which its source file declares it."""
        m = re.match(r'Rattle\.(\w+)\.specs\.declared\.(?:.*\.)?(\w+)\.TheVariants$', path)
        if not m:
            return None
        crate, enum = m.groups()
        if (crate, enum) not in self.enums:
            self.enums[crate, enum] = self.read_enum(crate, enum)
        variants = self.enums[crate, enum]
        if name not in variants:
            raise AnttError('no variant %s of %s.%s' % (name, crate, enum))
        return self.constructor((crate, enum), name, variants[name])

    def read_enum(self, crate, enum):
        for base in (os.path.join(self.root, 'crates'), self.kit):
            src = os.path.join(base, crate, 'src')
            for folder, _, files in os.walk(src):
                for file in sorted(files):
                    if file.endswith('.rt'):
                        with open(os.path.join(folder, file), encoding='utf-8') as f:
                            m = re.search(r'pub enum %s(?:<[^>]*>)? \{(.*?)\n\}' % enum, f.read(), re.S)
                        if m:
                            return self.variants_of(m.group(1))
        raise AnttError('no enum %s in %s' % (enum, crate))

    def constant(self, path, name):
        """A constant of the code that a definition cites, `path` being that of its source file: a number."""
        parts = path.split('.')
        source = os.path.join(self.root, 'crates', parts[1], 'src', *parts[4:-1]) + '.rt'
        with open(source, encoding='utf-8') as f:
            m = re.search(r'\bconst %s: \w+ = ([0-9_]+);' % name, f.read())
        if not m:
            raise AnttError('no constant %s in %s' % (name, source))
        return ('const', m.group(1).replace('_', ''))

    @staticmethod
    def variants_of(body):
        body = re.sub(r'//[^\n]*|#\[[^\]]*\]', '', body)
        out = {}
        for m in re.finditer(r'(\w+)\s*(?:\{(.*?)\}|\(((?:[^()]|\([^()]*\))*)\))?\s*(?:,|$)', body, re.S):
            if m.group(2) is not None:
                out[m.group(1)] = len(re.findall(r'\w+\s*:', m.group(2)))
            elif m.group(3) is not None:
                depth, n = 0, 1
                for c in m.group(3).strip().rstrip(','):
                    depth += {'(': 1, '<': 1, ')': -1, '>': -1}.get(c, 0)
                    n += c == ',' and depth == 0
                out[m.group(1)] = n
            else:
                out[m.group(1)] = 0
        return out

    def constructor(self, enum, name, arity):
        key = (enum, name)
        if key not in self.ctors:
            slots = ['a%d' % i for i in range(arity)]
            py = 'C_%s_%s_%s' % (re.sub(r'\W', '_', enum[0]), enum[1], name)
            space = {}
            body = ''.join('        self.%s = %s\n' % (s, s) for s in slots) or '        pass\n'
            exec('class %s:\n    __slots__ = (%s)\n    def __init__(self%s):\n%s'
                 % (py, ''.join(repr(s) + ', ' for s in slots), ''.join(', ' + s for s in slots), body), space)
            cls = space[py]
            cls.ctor, cls.enum, cls.arity, cls.__repr__ = name, enum[1], arity, show
            self.space[py] = cls if arity else cls()
            self.ctors[key] = ('ctor', py, arity)
        return self.ctors[key]

    def lookup(self, path, name):
        """What a name of a cited module is: ('native', n), ('const', text), ('ctor', py, arity) or a Definition."""
        if path.endswith('.TheVariants') and not re.match(r'Rattle\.(std|core)\.', path):
            return self.variant(path, name)
        if path.endswith('.TheConstants') and not re.match(r'Rattle\.(std|core)\.', path):
            return self.constant(path, name)
        own = self.module_path(path)
        if own is None or re.match(r'Rattle\.(std|core)\.', path):
            if name in ('Some', 'Ok', 'Err'):
                return ('ctor', name, 1)
            if name in CONSTANT:
                return ('const', CONSTANT[name])
            if name in NATIVE:
                return ('native', NATIVE[name])
            if own is None:
                return None
        return self.here(self.module(path), name)

    def here(self, module, name):
        key = (module.name, name)
        if key in self.defs:
            return self.defs[key]
        if name in module.clauses:
            short = module.name.split('.specs.')[0].split('.')[-1] + '.' + module.name.split('.specs.')[-1]
            d = self.defs[key] = Definition(module, name, 'd%d_%s' % (len(self.defs), re.sub(r'\W', '_', name)))
            d.short = short
            d.clauses = [self.clause(module, name, text, line) for text, line in module.clauses[name]]
            d.arity = len(d.clauses[0][0])
            self.queue.append(d)
            return d
        if name in module.laws:
            return self.law(module, name)
        if name in module.data:
            return self.constructor((module.name, module.data[name][0]), name, module.data[name][1])
        if name in module.uses:
            return self.lookup(*module.uses[name])
        return None

    def law(self, module, name):
        """A record of propositions as a definition: its parameters, and all its fields."""
        text, line = module.laws[name]
        d = self.defs[module.name, name] = Definition(module, name, 'd%d_%s' % (len(self.defs), re.sub(r'\W', '_', name)))
        d.short = module.name.split('.specs.')[0].split('.')[-1] + '.' + module.name.split('.specs.')[-1]
        head, body = text[len(name):].split(' where\n', 1) if ' where\n' in text else (text[len(name):], '')
        params = [(n, t) for names, t in re.findall(r'\(([^():]+):((?:[^()]|\((?:[^()]|\([^()]*\))*\))*)\)', head.rpartition(':')[0] or head)
                  for n in names.split()]
        module.types[name] = ' → '.join(['(%s)' % t.strip() for _, t in params] + ['Type 0'])
        fields = []
        for part in re.split(r'^ +pub ', re.sub(r'^ *--[^\n]*', '', body, flags=re.M), flags=re.M)[1:]:
            p = Parser(tokens_of(part.partition(':')[2], line), module.path)
            fields.append(p.expr())
            if p.peek() is not END:
                p.fail('end of field expected')
        e = ('var', '⊤')
        for field in reversed(fields):
            e = ('op', '×', field, e) if e != ('var', '⊤') else field
        d.clauses, d.arity = [([('name', n) for n, _ in params], e)], len(params)
        self.queue.append(d)
        return d

    def clause(self, module, name, text, line):
        p = Parser(tokens_of(text, line), module.path)
        patterns = []
        if p.peek().text == name:
            p.next()
        else:
            patterns.append(p.pattern_atom())
            p.next()
        while not p.at_op('='):
            pattern = p.pattern_atom()
            if pattern is not None:
                patterns.append(pattern)
        p.next()
        body = p.expr()
        if p.peek() is not END:
            p.fail('end of clause expected')
        return patterns, body

    def resolve(self, module, name):
        found = self.here(module, name)
        if found is None:
            if name in CONSTANT:
                return ('const', CONSTANT[name])
            raise AnttError('%s: what is %s?' % (module.path, name))
        return found

    # -- code

    def shape(self, fields):
        """The class of records with these fields."""
        key = frozenset(fields)
        if key not in self.shapes:
            name, order = 'Rec%d' % len(self.shapes), list(fields)
            for module in self.modules.values():
                for record, names in module.records.items():
                    if frozenset(n.strip('«»') for n in names) == key:
                        order = [n.strip('«»') for n in names]
            attrs = [attr(f) for f in order]
            space = {}
            exec('class %s:\n    __slots__ = (%s)\n    def __init__(self, %s):\n%s'
                 % (name, ''.join(repr(a) + ', ' for a in attrs), ', '.join(attrs),
                    ''.join('        self.%s = %s\n' % (a, a) for a in attrs)), space)
            cls = space[name]
            cls.fields, cls.order, cls.__repr__ = key, order, show
            self.space[name] = cls
            self.shapes[key] = (name, order, cls)
            for update in list(self.updates):
                self.add_update(cls, name, update)
        return self.shapes[key]

    def update(self, fields):
        """The name of the method that gives a record with these fields changed."""
        key = tuple(sorted(fields))
        if key not in self.updates:
            self.updates.add(key)
            for name, order, cls in self.shapes.values():
                self.add_update(cls, name, key)
        return 'u_' + '__'.join(attr(f) for f in key)

    def add_update(self, cls, name, key):
        if set(key) <= cls.fields:
            method = 'u_' + '__'.join(attr(f) for f in key)
            space = {name: cls}
            exec('def %s(self, %s):\n    return %s(%s)' % (method, ', '.join(attr(f) for f in key), name, ', '.join(
                attr(f) if f in key else 'self.' + attr(f) for f in cls.order)), space)
            setattr(cls, method, space[method])

    def fresh(self, name):
        self.counter += 1
        return 'v%d_%s' % (self.counter, re.sub(r'\W', '_', name))

    def match(self, module, p, path, conds, binds):
        """Adds the tests that a pattern makes of the value at `path`, and the paths of its variables."""
        if p[0] == 'any':
            return
        if p[0] == 'num':
            conds.append('%s == %d' % (path, p[1]))
            return
        if p[0] == 'tuple':
            for i, q in enumerate(p[1]):
                self.match(module, q, '%s[%d]' % (path, i), conds, binds)
            return
        if p[0] == 'name':
            found = self.here(module, p[1]) if p[1] not in module.clauses else None
            found = found or (('const', CONSTANT[p[1]]) if p[1] in CONSTANT and p[1] not in ('tt', 'w8') else None)
            if not isinstance(found, tuple) or found[0] not in ('ctor', 'const'):
                binds.append((p[1], path))
                return
            p = ('con', p[1], [])
        name, args = p[1], p[2]
        if name in ('[]', '◌∷◌'):
            conds.append('%s is %sNIL' % (path, 'not ' if args else ''))
            if args:
                self.match(module, args[0], path + '.a0', conds, binds)
                self.match(module, args[1], path + '.a1', conds, binds)
            return
        if name in ('suc', 'pos', 'negsuc'):
            conds.append(path + {'suc': ' > 0', 'pos': ' >= 0', 'negsuc': ' < 0'}[name])
            self.match(module, args[0], {'suc': '(%s - 1)', 'pos': '%s', 'negsuc': '(-1 - %s)'}[name] % path, conds, binds)
            return
        found = self.lookup(module.aliases[name[0]], name[1]) if isinstance(name, tuple) else self.resolve(module, name)
        if found[0] == 'const':
            value = found[1]
            conds.append({'True': path, 'False': 'not ' + path, 'None': path + ' is None', '()': 'True'}.get(value, '%s == %s' % (path, value)))
            return
        _, py, arity = found
        if arity != len(args):
            raise AnttError('%s: %s takes %d' % (module.path, name, arity))
        conds.append('%s.__class__ is %s' % (path, py) if arity else '%s is %s' % (path, py))
        if py == 'Some':
            conds[-1] = path + ' is not None'
        for i, q in enumerate(args):
            self.match(module, q, '%s.a%d' % (path, i), conds, binds)

    def compile(self, d):
        """The Python function of a definition, a chain of ifs; a call of itself at its end is a loop."""
        params = ['p%d' % i for i in range(d.arity)]
        self.current, self.loops = d, False
        body = []
        for patterns, e in d.clauses:
            conds, binds = [], []
            for p, param in zip(patterns, params):
                self.match(d.module, p, param, conds, binds)
            env, lines = {}, []
            for name, path in binds:
                if path in params:
                    env[name] = path
                elif free_in(e, name):
                    env[name] = self.fresh(name)
                    lines.append('%s = %s' % (env[name], path))
                else:
                    env[name] = path
            self.tail(d.module, env, e, lines)
            if conds:
                body.append('if %s:' % ' and '.join(conds))
                body.extend('    ' + line for line in lines)
            else:
                body.extend(lines)
                break
        else:
            body.append('no_clause(%r)' % (d.short + '.' + d.name))
        if self.loops:
            body = ['while True:'] + ['    ' + line for line in body]
        return ['def %s(%s):' % (d.py, ', '.join(params))] + ['    ' + line for line in body]

    def tail(self, module, env, e, lines):
        if e[0] == 'if':
            lines.append('if %s:' % self.code(module, env, e[1]))
            for part, head in ((e[2], None), (e[3], 'else:')):
                if head:
                    lines.append(head)
                inner = []
                self.tail(module, env, part, inner)
                lines.extend('    ' + line for line in inner)
        elif e[0] == 'let':
            value = self.code(module, env, e[2])
            env = dict(env)
            env[e[1]] = self.fresh(e[1])
            lines.append('%s = %s' % (env[e[1]], value))
            self.tail(module, env, e[3], lines)
        elif (e[0] == 'app' and e[1] == ('var', self.current.name) and self.current.name not in env
              and len(e[2]) == self.current.arity and self.here(module, self.current.name) is self.current):
            self.loops = True
            args = [self.code(module, env, a) for a in e[2]]
            changed = [(i, a) for i, a in enumerate(args) if a != 'p%d' % i]
            if changed:
                lines.append('%s = %s' % (', '.join('p%d' % i for i, a in changed), ', '.join(a for i, a in changed)))
            lines.append('continue')
        else:
            lines.append('return ' + self.code(module, env, e))

    def code(self, module, env, e):
        kind = e[0]
        if kind == 'num':
            return str(e[1])
        if kind == 'str':
            return repr(e[1])
        if kind == 'var':
            return env[e[1]] if e[1] in env else self.value(self.resolve(module, e[1]))
        if kind == 'proj':
            if e[1][0] == 'var' and e[1][1] not in env and e[1][1] in module.aliases:
                return self.value(self.cited(module, e))
            inner = self.code(module, env, e[1])
            return '%s[%s]' % (inner, e[2]) if e[2].isdigit() else '%s.%s' % (inner, attr(e[2]))
        if kind == 'tuple':
            return '(' + ', '.join(self.code(module, env, x) for x in e[1]) + ')'
        if kind == 'if':
            return '(%s if %s else %s)' % (self.code(module, env, e[2]), self.code(module, env, e[1]), self.code(module, env, e[3]))
        if kind == 'let':
            value = self.code(module, env, e[2])
            inner = dict(env)
            inner[e[1]] = self.fresh(e[1])
            return '(%s := %s, %s)[1]' % (inner[e[1]], value, self.code(module, inner, e[3]))
        if kind == 'lam':
            inner = dict(env)
            names = [self.fresh(n) for n in e[1]]
            inner.update(zip(e[1], names))
            kept = sorted({v for n, v in env.items() if re.match(r'\w+$', v) and n not in e[1] and free_in(e[2], n)})
            heads = ', '.join(names + ['%s=%s' % (v, v) for v in kept])
            return 'Fun(lambda %s: %s, %d)' % (heads, self.code(module, inner, e[2]), len(names))
        if kind == 'rec':
            return self.record(module, env, e)
        if kind == 'not':
            return '(not %s)' % self.code(module, env, e[1])
        if kind == 'op' and e[1] in ('→', '↔', '⊎', '×', '≡', '≢'):
            return self.proposition(module, env, e)
        if kind == 'op':
            name = '◌%s◌' % e[1]
            if e[1] == '-':
                a, b = self.code(module, env, e[2]), self.code(module, env, e[3])
                return 'max(0, %s - %s)' % (a, b)
            return self.apply(module, env, self.resolve(module, name), [e[2], e[3]])
        if kind == 'app':
            f = e[1]
            if f[0] == 'var' and f[1] not in env:
                return self.apply(module, env, self.resolve(module, f[1]), e[2])
            if f[0] == 'proj' and f[1][0] == 'var' and f[1][1] not in env and f[1][1] in module.aliases:
                return self.apply(module, env, self.cited(module, f), e[2])
            return self.called(self.code(module, env, f), [self.code(module, env, a) for a in e[2]])
        raise AnttError('%s: cannot compile %s' % (module.path, kind))

    def proposition(self, module, env, e):
        _, op, a, b = e
        binds = [a] if a[0] == 'bind' else [a[1]] + a[2] if a[0] == 'app' and a[1][0] == 'bind' else None
        if not binds:
            form = {'→': '(not {0} or {1})', '↔': '(bool({0}) == bool({1}))', '⊎': '({0} or {1})', '×': '({0} and {1})',
                    '≡': 'same({0}, {1})', '≢': '(not same({0}, {1}))'}[op]
            return form.format(self.code(module, env, a), self.code(module, env, b))
        inner, heads, given = dict(env), [], []
        for _, names, t in binds:
            for name in names:
                if t[0] == 'var' and t[1] in self.domains:
                    inner[name] = self.fresh(name)
                    heads.append('for %s in domains[%r]' % (inner[name], t[1]))
                else:
                    given.append(self.code(module, inner, t))
                    inner[name] = 'True'
        body = self.code(module, inner, b)
        word = 'all' if op == '→' else 'any'
        for g in given:
            body = '(not %s or %s)' % (g, body) if op == '→' else '(%s and %s)' % (g, body)
        return '%s(%s %s)' % (word, body, ' '.join(heads)) if heads else body

    def cited(self, module, e):
        found = self.lookup(module.aliases[e[1][1]], e[2])
        if found is None:
            raise AnttError('%s: what is %s.%s?' % (module.path, e[1][1], e[2]))
        return found

    def record(self, module, env, e):
        fields = dict(e[2])
        if e[1] is not None:
            key = sorted(fields)
            return '%s.%s(%s)' % (self.code(module, env, e[1]), self.update(key), ', '.join(self.code(module, env, fields[f]) for f in key))
        if list(fields) == ['0']:
            return '(%s,)' % self.code(module, env, fields['0'])
        name, order, _ = self.shape(list(fields))
        return '%s(%s)' % (name, ', '.join(self.code(module, env, fields[f]) for f in order))

    def value(self, found):
        """A cited name as a value."""
        if isinstance(found, Definition):
            return 'F_%s' % found.py if found.arity else '%s()' % found.py
        if found[0] == 'const':
            return found[1]
        if found[0] == 'ctor':
            return 'Fun(%s, %d)' % (found[1], found[2]) if found[2] else found[1]
        n = found[1]
        if n.fn:
            return 'Fun(%s, %d)' % (n.fn.__name__, n.arity)
        names = ['x%d' % i for i in range(n.arity)]
        return 'Fun(lambda %s: %s, %d)' % (', '.join(names), n.template.format(*names), n.arity)

    def apply(self, module, env, found, args):
        """A call of a cited name."""
        code = [self.code(module, env, a) for a in args]
        if isinstance(found, Definition):
            arity, direct = found.arity, lambda a: '%s(%s)' % (found.py, ', '.join(a))
        elif found[0] == 'ctor':
            arity, direct = found[2], lambda a: '%s(%s)' % (found[1], ', '.join(a))
        elif found[0] == 'native':
            n = found[1]
            arity = n.arity
            direct = (lambda a: '%s(%s)' % (n.fn.__name__, ', '.join(a))) if n.fn else (lambda a: n.template.format(*a))
        else:
            raise AnttError('%s: a constant is applied' % module.path)
        if len(code) < arity:
            have = ['x%d' % i for i in range(len(code))]
            want = ['y%d' % i for i in range(arity - len(code))]
            return '(lambda %s: Fun(lambda %s: %s, %d))(%s)' % (', '.join(have), ', '.join(want), direct(have + want), len(want), ', '.join(code))
        return self.called(direct(code[:arity]), code[arity:])

    @staticmethod
    def called(f, args):
        if not args:
            return f
        return '%s(%s)' % ('ap%d' % len(args) if len(args) < 4 else 'call', ', '.join([f] + args))

    def flush(self):
        """Compiles what was cited and is not compiled yet."""
        while self.queue:
            d = self.queue.pop()
            short = '%s.%s' % (d.short, d.name)
            if (d.short, d.name) in self.override:
                fn = self.override[d.short, d.name]
            else:
                lines = self.compile(d)
                source = '\n'.join(lines)
                self.lines.append(source)
                exec(compile(source, '<%s>' % short, 'exec'), self.space)
                fn = self.space[d.py]
            if d.arity == 0:
                fn = once(fn)
            elif short in self.memo:
                fn = keeping(fn, self.kept)
            self.space[d.py] = fn
            self.space['F_' + d.py] = Fun(fn, d.arity) if d.arity else None

    def get(self, name):
        """The definition `CRATE.FILE.NAME` (as `tx_model.World.possible`) as a Python function, or its value where it
        takes no argument."""
        crate, rest = name.split('.', 1)
        file, _, word = rest.rpartition('.')
        module = self.module('Rattle.%s.specs.%s' % (crate, file or 'Lib'))
        d = self.here(module, word)
        if not isinstance(d, Definition):
            raise AnttError('no definition ' + name)
        self.flush()
        return self.space[d.py] if d.arity else self.space[d.py]()

    def type_of(self, name):
        crate, rest = name.split('.', 1)
        file, _, word = rest.rpartition('.')
        return self.module('Rattle.%s.specs.%s' % (crate, file or 'Lib')).types.get(word, '').lstrip(': ')

    def add_file(self, path):
        """Takes one more file of definitions, X.antt, whose words are cited as `extra.X.NAME`."""
        self.extra['Rattle.extra.specs.' + os.path.basename(path)[:-5]] = path

    def make(self, **fields):
        """A record with these fields."""
        name, order, cls = self.shape(list(fields))
        return cls(*[fields[f] for f in order])

    def enum(self, crate, enum, variant):
        """A variant: its class, or the one value where it has no fields."""
        return self.space[self.variant('Rattle.%s.specs.declared.x.%s.TheVariants' % (crate, enum), variant)[1]]


def once(fn):
    kept = []

    def get():
        if not kept:
            kept.append(fn())
        return kept[0]
    return get


def keeping(fn, kept):
    """The function with its results kept by argument, until Project.kept is cleared: small records by value, all else by
    identity."""
    def get(*args):
        key = (fn,) + tuple(memo_key(a) for a in args)
        hit = kept.get(key)
        if hit is None:
            hit = kept[key] = (fn(*args), args)
        return hit[0]
    return get


def memo_key(v):
    if isinstance(v, (int, tuple)):
        return v
    if getattr(v, 'fields', None) == {'node', 'session', 'number'}:
        return (v.f_node, v.f_session, v.f_number)
    return ('at', id(v))


def no_clause(name):
    raise AnttError('no clause of %s fits' % name)
