"""Invariants, repairs and failures as sentences. `places` says how addresses and values are called."""
from .words import KINDS, count, listed, register, signed


def bytes_away(offset):
    """What sp is, from an offset against its value on entry."""
    distance = signed(offset)
    if distance == 0:
        return 'what it was on entry'
    return f'{count(abs(distance), "byte")} {"below" if distance < 0 else "above"} its value on entry'


def always(invariant, places):
    """What was always true in the good runs: `a5 (x15) was always handle_text or handle_hex`."""
    registers = [register(number) for number in invariant.registers]
    if invariant.sort == 'one-of':
        values = invariant.values
        told = [places.value(value) for value in values]
        if len(values) == 1:
            return f'{registers[0]} was always {told[0]}'
        noun = 'addresses' if all(places.is_code(value) for value in values) else 'values'
        number = {2: 'two', 3: 'three', 4: 'four'}.get(len(values), len(values))
        return f'{registers[0]} was always one of these {number} {noun}: {listed(told, "or")}'
    if invariant.sort == 'lower':
        return f'{registers[0]} was always at least {signed(invariant.values[0])}'
    if invariant.sort == 'less-than':
        return f'{registers[0]} was never above {registers[1]}'
    return f'sp was always {bytes_away(invariant.values[0])}'


def broken(invariant):
    """How it is said that the invariant did not hold."""
    return {'one-of': 'it was not', 'lower': 'it was less', 'less-than': 'it was above',
            'sp-offset': 'it was not'}[invariant.sort]


def before(point, places):
    """`before the call at dispatch.c:68`."""
    return f'before the {places.sort(point)} at {places.place(point)}'


def capital(text):
    """The text with its first letter as a capital."""
    return text[:1].upper() + text[1:]


def candidate_sentence(candidate, violations, places):
    """What is known of a candidate that is not `not`, in one sentence without its full stop."""
    invariant = candidate.invariant
    text = f'{capital(before(invariant.point, places))}, {always(invariant, places)}'
    if candidate.grade == 'highly':
        return f'{text}; in every checked failure {broken(invariant)}'
    if candidate.grade == 'moderately':
        most = f', up to {violations[1]:,} times in one run' if violations else ''
        return f'{text}; in every checked failure {broken(invariant)}{most}'
    if candidate.grade == 'slightly':
        return f'{text}; in some checked failures {broken(invariant)}, but not at the last check of each'
    return text


def action_words(action, places):
    """What a repair does: `set a5 (x15) to handle_text`."""
    registers = [register(number) for number in action.registers]
    if action.sort == 'set':
        return f'set {registers[0]} to {places.value(action.value)}'
    if action.sort == 'copy':
        return f'set {registers[0]} to the value of {registers[1]}'
    if action.sort == 'set-sp':
        return f'set sp to {bytes_away(action.value)}'
    if action.sort == 'skip':
        return 'skip the call'
    return 'return from the function at once'


def cure_sentence(candidate, action, places):
    """What the repair in charge does where its candidate does not hold."""
    invariant = candidate.invariant
    if action.sort == 'set' and invariant.sort == 'one-of' and len(invariant.values) > 1:
        place = ('first', 'second', 'third', 'fourth')[invariant.values.index(action.value)] \
            if action.value in invariant.values else 'other'
        return f'now it is set to the {place}, {places.value(action.value)}'
    if action.sort == 'set':
        return f'now it is set to {places.value(action.value)}'
    if action.sort == 'copy':
        return f'now {register(action.registers[0])} is set to the value of {register(action.registers[1])}'
    if action.sort == 'set-sp':
        return 'now it is set to that'
    if action.sort == 'skip':
        return 'now the call is skipped there'
    return 'now the function returns there at once'


def failure_sentence(end, places):
    """What happened in a run that failed, in half a sentence with its place."""
    return KINDS[end.kind][2].format(places.address(end.detail))
