"""How many rules may call one another before anything is read (proofs/Low.antt); a rule that comes back to itself is refused."""
from .complaints import Complaint

HIGHEST = 256


def called_first(starts, form, free, calls):
    """Adds the rules that the form calls where nothing has been read (`free`: nothing was read before the form)."""
    kind = form[0]
    if kind == '&':
        called_first(starts, form[1], free, calls)
        called_first(starts, form[2], free and starts.nullable(form[1]), calls)
    elif kind in ('when', 'supplied'):
        called_first(starts, form[2], free, calls)
        called_first(starts, form[3], free, calls)
    elif kind == 'either':
        called_first(starts, form[1], free, calls)
        called_first(starts, form[2], free, calls)
    elif kind in ('vanishing', 'generics_before'):
        called_first(starts, form[3], free, calls)
    elif kind in ('such', 'shaped'):
        called_first(starts, form[2], free, calls)
    elif kind == 'captured':
        called_first(starts, form[1], free, calls)
    elif kind == 'rule' and free:
        calls.add(form[1][0])
    elif kind == 'one_of' and free:
        calls.update(k[0] for k in form[1])


def ranks(starts):
    """Each rule's rank, and the complaints of rules that come back to themselves."""
    calls = {k: set() for k in starts.table}
    for rule, form in starts.table.items():
        called_first(starts, form, True, calls[rule])
    rank, path, found = {}, [], []

    def visit(rule):
        if rule in path:
            found.append(Complaint('LEFT', rule, ' calls '.join(path[path.index(rule):] + [rule])))
            return 0
        if rule not in rank:
            path.append(rule)
            rank[rule] = 1 + max([visit(k) for k in sorted(calls[rule])], default=-1)
            path.pop()
        return rank[rule]

    for rule in starts.table:
        visit(rule)
    return rank, found
