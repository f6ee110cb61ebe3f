"""The statements that the record `Engine` (hem_zone specs/Engine.antt) reaches."""
import contracts

PLACE = ('Rattle.hem_zone.specs.Engine', 'Engine')


def word(text):
    """The name that a type begins with."""
    return text.split()[0].lstrip('(') if text else ''


def field_types(item):
    """The fields of a record, each with its type."""
    for part in item.parts:
        names, _, type_ = part.partition(' : ')
        for name in names.split():
            yield name, type_


def heads(sources, item):
    """The items whose types the fields of a record have, behind what they take; of a record beside it those of its fields."""
    for _, type_ in field_types(item):
        head = sources.resolved(item.file, word(contracts.conclusion(type_)))
        if head is not None and head.file is item.file and head.sort == 'record':
            yield from heads(sources, head)
        elif head is not None:
            yield head


def stated(sources, files):
    """The statements that stand as fields below `Engine`: types of the files of statements."""
    item = sources.exported(*PLACE)
    return [] if item is None else [head for head in heads(sources, item) if head.file in files]


def number(sources, files):
    """How many fields and types of the files of statements `Engine` reaches."""
    found, left = set(), [sources.exported(*PLACE)]
    while left:
        item = left.pop()
        if item is not None and item not in found:
            found.add(item)
            left += [named for named in sources.named(item) if named.is_type() and named.file in files]
    return sum(max(1, len(item.parts)) if item.sort in ('record', 'data') else 1 for item in found)
