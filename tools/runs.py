"""runs.py: runs of scenarios by the project's own definitions, and statements and invariants about them."""
import random
import sys

from antt import AnttError, Definition, NIL, Ok, Project, from_list, list_text, show, text_list, to_list

# Results that statements ask for again and again, kept by their arguments for one journal (Machine.fresh clears them).
MEMO = {'tx_model.History.footprint', 'tx_model.History.commits', 'journal_statements.Noted.noted',
        'journal_statements.Noted.maps_installed', 'act_rows.NewNodes.opening_map_of', 'journal_statements.Walks.txs_of_journal',
        'journal_statements.Topologies.topology_events', 'journal_statements.Noted.recs_of'}
SHORT = 150


class Run:
    """A run: its scenario, events, groups (a Python list), the world after it, how many events were possible at each place,
    and its end (`AllEnded`, `Stalled`, `StepLimit`, `Memory`)."""
    def __init__(self, scenario, world):
        self.scenario, self.world, self.groups, self.events, self.end, self.widths = scenario, world, [], [], None, []


class Machine:
    def __init__(self, root, plain_tables=False):
        self.project = p = Project(root, memo=MEMO, plain_tables=plain_tables)
        get = p.get
        self.opening, self.possible = get('tx_model.Opening.opening'), get('tx_model.World.possible')
        self.outcome, self.all_sessions_over = get('tx_model.World.outcome'), get('tx_model.World.all_sessions_over')
        self.scenario_of = get('scen_text.Reading.scenario_of')
        self.ends = {e: p.enum('ignite_types', 'End', e) for e in ('AllEnded', 'Stalled', 'StepLimit', 'Memory')}
        self.lazy = {}

    def get(self, name):
        if name not in self.lazy:
            self.lazy[name] = self.project.get(name)
        return self.lazy[name]

    def fresh(self):
        self.project.kept.clear()

    # -- scenarios and schedules

    def read(self, data):
        """The scenario that the bytes are: (scenario, None), or (None, the line of the refusal)."""
        r = self.scenario_of(text_list(data))
        if isinstance(r, Ok):
            return r.a0, None
        return None, list_text(self.get('scen_text.Causes.refusal_text')(r.a0.f_line, r.a0.f_cause))

    def seeded(self, seed):
        """The project's own pick of a seed, as a function of the number of possible events."""
        if seed == 0:
            return lambda n: 0
        state = [self.get('sched_seed.Words.generator')(seed, 1)]
        word, after = self.get('sched_seed.Words.word_of'), self.get('sched_seed.Words.after_word')

        def pick(n):
            w = word(state[0])
            state[0] = after(state[0])
            return w % n
        return pick

    @staticmethod
    def chance(seed):
        """A schedule of Python's own chance: seed 0 is the first event always; other seeds have a bias of their own, some
        by place, some by kind of event, so that links lag, sessions race, or the plan comes early."""
        if seed == 0:
            return lambda events: 0
        rng = random.Random(seed)
        style = rng.choice(('even', 'even', 'kinds', 'late', 'lag', 'lag', 'early', 'plan', 'plan', 'plan'))
        weights = {}
        rare = rng.choice((0.02, 0.05, 0.1, 0.2))

        def pick(events):
            n = len(events)
            if style == 'even':
                return rng.randrange(n)
            if style == 'late':
                return n - 1 if rng.random() < 0.7 else rng.randrange(n)
            if style == 'early':
                return 0 if rng.random() < 0.8 else rng.randrange(n)
            if style == 'plan':      # the plan's steps, which stand last, come in the midst of other things
                others = n - (events[-1].ctor == 'Plan')
                return n - 1 if others < n and (n == 1 or rng.random() < rare) else rng.randrange(others)
            w = []
            for e in events:
                key = e.ctor if style == 'kinds' else (e.ctor, getattr(e, 'a0', 0), getattr(e, 'a1', 0))
                if key not in weights:
                    weights[key] = rng.choice((0.02, 0.3, 1, 1, 3))
                w.append(weights[key])
            return rng.choices(range(n), w)[0]
        return pick

    def run(self, scenario, pick, steps=100000, by_number=False, observe=None):
        """A run to its end, or to a number of events.  `pick` takes the possible events (with `by_number` their number) and
        gives a place.  `observe(run, before, event)` is called after each event, and ends the run where it gives true."""
        run = Run(scenario, self.opening(scenario))
        possible, outcome, make = self.possible, self.outcome, self.project.make
        while True:
            events = from_list(possible(run.world))
            if not events:
                run.end = 'AllEnded' if self.all_sessions_over(run.world) else 'Stalled'
                return run
            if len(run.groups) >= steps:
                run.end = 'StepLimit'
                return run
            e = events[pick(len(events) if by_number else events)]
            self.step(run, e)
            run.widths.append(len(events))
            if observe is not None and observe(run, e):
                run.end = 'StepLimit'
                return run

    def step(self, run, event):
        o = self.outcome(run.world, event)
        run.before, run.world = run.world, o.f_world
        run.events.append(event)
        run.groups.append(self.project.make(event=event, recs=o.f_recs))

    def replay(self, scenario, places, steps=100000):
        """The run whose events stand at these places of the possible ones, the first ones behind them."""
        left = iter(places)
        return self.run(scenario, lambda n: min(next(left, 0), n - 1), steps, by_number=True)

    def journal(self, run, length=None, end=None):
        groups = run.groups if length is None else run.groups[:length]
        end = end or (run.end if length in (None, len(run.groups)) else 'StepLimit')
        return self.project.make(scenario=run.scenario, groups=to_list(groups), end=self.ends[end])

    # -- the project's own texts

    def told(self, options, run):
        return bytes(from_list(self.get('sim_top.Told.output_text')(options, self.journal(run))))

    def asked(self, words):
        return self.get('sim_top.Asked.options_asked')(to_list([text_list(w) for w in words]))

    # -- statements

    def conjuncts(self, name):
        """The conjuncts of a Bool-valued definition of one journal, those of conjuncts too: [(label, function)]."""
        self.get(name)
        crate, file, word = name.split('.')
        return self.flat(self.project.module('Rattle.%s.specs.%s' % (crate, file)), word, [])

    def flat(self, module, word, path):
        d = self.project.here(module, word)
        patterns, body = d.clauses[0]
        parts = []

        def split(e):
            if e[0] == 'op' and e[1] == '&&':
                split(e[2])
                split(e[3])
            else:
                parts.append(e)
        split(body)
        one = len(d.clauses) == 1 and len(patterns) == 1 and all(
            e[0] == 'app' and e[1][0] == 'var' and e[2] == [('var', patterns[0][1])] for e in parts)
        if not one or len(parts) == 1:
            return [('.'.join(path + [word]) if path else word, self.project.space[d.py])]
        out = []
        for e in parts:
            inner = self.project.here(d.module, e[1][1])
            out.extend(self.flat(inner.module, inner.name, path + ([word] if path else []) or [])
                       if isinstance(inner, Definition) else [])
        return out

    def false_of(self, statements, journal):
        """The labels of the statements that are false of the journal."""
        self.fresh()
        return [label for label, test in statements if not test(journal)]

    def first_false(self, test, run):
        """The length of the shortest prefix of which the statement is false, where it is false of the whole run."""
        for n in range(len(run.groups) + 1):
            self.fresh()
            if not test(self.journal(run, n)):
                return n
        return len(run.groups)

    # -- invariants

    def invariant(self, name):
        """A Bool-valued definition as a function of a run.  Its parameters are told by their types:
             Scenario · World (the world after the event; of two the first is the one before it) · Event · Group (the last)
             List Group · List Noted · List Rec · Journal (of the groups so far) · Homes · List PartMap (the maps installed)
           A Scenario or a World alone will do.  The type may name parameters, as (s : Scenario) -> .."""
        test = self.get(name)
        types = [t.strip() for t in arrows(self.project.type_of(name))]
        if types[-1] not in ('Bool', 'Type 0'):
            raise AnttError('%s gives neither a Bool nor a proposition: %s' % (name, types[-1]))
        worlds = sum(t.endswith('World') for t in types)
        makers, seen = [], 0
        for t in types[:-1]:
            t = t.strip('() ').split(':')[-1].strip()
            if t == 'World':
                seen += 1
                makers.append((lambda r: r.before) if worlds == 2 and seen == 1 else (lambda r: r.world))
            elif t in INPUTS:
                makers.append(INPUTS[t](self))
            else:
                raise AnttError('%s: an argument of type %s is not known' % (name, t))
        return lambda run: test(*[m(run) for m in makers])

    def spread(self, run):
        """Sets the domains of quantifiers to what the run has: its nodes, versions, transactions and the scenario's keys."""
        p = self.project
        ids = from_list(self.get('tx_model.Opening.ids_of')(run.scenario))
        sessions = from_list(run.scenario.f_sessions)
        keys = {(k.f_cache, list_text(k.f_text)): k for s in sessions for item in from_list(s.f_commands) for k in parts_of(item, 'text')}
        txs = [p.make(node=s.f_node, session=i, number=n) for i, s in enumerate(sessions, 1) for n in range(1, 9)
               if n <= starts(s) + 1]
        tops = {(t.f_major, t.f_minor): t for g in run.groups for r in from_list(g.f_recs) if r.ctor == 'Opened' for t in [r.a0]}
        tops = list(tops.values()) + [self.get('part_model.Directory.first_top')]
        p.domains.update(NodeId=ids, Key=list(keys.values()), TxId=txs, TopVer=tops,
                         Member=from_list(self.get('tx_model.Opening.declared_nodes')(run.scenario)))

    def noted(self, run):
        return self.get('journal_statements.Noted.noted')(run.scenario, to_list(run.groups))


INPUTS = {
    'Scenario': lambda m: lambda r: r.scenario,
    'Event': lambda m: lambda r: r.events[-1],
    'Group': lambda m: lambda r: r.groups[-1],
    'List Group': lambda m: lambda r: to_list(r.groups),
    'List Event': lambda m: lambda r: to_list(r.events),
    'List Noted': lambda m: m.noted,
    'List Rec': lambda m: lambda r: to_list([x for g in r.groups for x in from_list(g.f_recs)]),
    'Journal': lambda m: lambda r: m.journal(r, len(r.groups), 'StepLimit'),
    'Homes': lambda m: lambda r: m.get('tx_model.Opening.session_nodes_from')(1, NIL, r.scenario.f_sessions),
    'List PartMap': lambda m: lambda r: m.get('journal_statements.Noted.maps_installed')(r.scenario, m.noted(r)),
}


def parts_of(item, field):
    """The records with this field among the arguments of an item, and of the command in it."""
    for i in range(item.arity):
        v = getattr(item, 'a%d' % i)
        if field in getattr(v, 'fields', ()):
            yield v
        elif hasattr(v, 'ctor'):
            yield from parts_of(v, field)


def starts(session):
    """How many transactions a session may start at most, of those that are looked at."""
    return min(8, len(from_list(session.f_commands)))


def arrows(text):
    """The parts of a type between its outer arrows; implicit parameters are left out."""
    parts, depth, start = [], 0, 0
    for i, c in enumerate(text):
        depth += {'(': 1, '{': 1, ')': -1, '}': -1}.get(c, 0)
        if c == '→' and depth == 0:
            parts.append(text[start:i])
            start = i + 1
    parts.append(text[start:])
    return [p for p in parts if not p.strip().startswith('{')]


# ---------------------------------------------------------------- printing

def event_text(machine, scenario, event):
    return list_text(machine.get('report_text.Traces.event_text')(scenario, event))


def cut(text, width):
    return text if len(text) <= width else text[:width - 2] + '..'


def print_trace(machine, run, first=0, last=None, width=SHORT, out=sys.stdout):
    """The events of a run with their records, in short form."""
    for i, (e, g) in enumerate(zip(run.events[first:last], run.groups[first:last]), first):
        out.write('%d %s\n' % (i + 1, event_text(machine, run.scenario, e)))
        for r in from_list(g.f_recs):
            out.write('      %s\n' % cut(show(r), width))


def print_events(machine, run, last=None, out=sys.stdout):
    out.write('events: ' + '; '.join('%d %s' % (i + 1, event_text(machine, run.scenario, e))
                                     for i, e in enumerate(run.events[:last])) + '\n')
