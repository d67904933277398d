"""Makes terms of Python values, and values of terms: integers, strings, bytes, lists, tuples and dataclasses.

`term` makes a term, as aterm.py has them. A dataclass is the application of its name to its fields: `Plus(Zero(), 1)` is `Plus(Zero,1)`.
`value` does the opposite: an application whose name and number of parts are those of one of the classes is an object of it, and another
one stays an application, whose parts are values. A text is a string if its bytes are UTF-8, and bytes otherwise. `value(term(x), *classes)`
is equal to x, but for bytes that are UTF-8. Neither function is recursive.

What has no term is refused with a TermError: `None`, a bool, a float, a tuple of one part, an object of another class, or of one whose name
is not in ASCII. So is a term with annotations, for which there is no value.
"""

from dataclasses import fields, is_dataclass

from aterm import NAME, Application, Integer, List, TermError, Text, shown, string


def term(value):
    """Returns the term of a value."""
    return rebuilt(value, parts_of_value, term_of)


def value(term, *classes):
    """Returns the value of a term, in which applications of the names of these dataclasses are objects of theirs."""
    known = {(each.__name__, len(fields(each))): each for each in classes}
    return rebuilt(term, parts_of_term, lambda node, parts: value_of(node, parts, known))


def rebuilt(whole, parts_of, made_of):
    """Returns what is made of the whole, where each node is made after its parts."""
    made, waiting = [], [(whole, None)]
    while waiting:
        node, count = waiting.pop()
        if count is None:
            parts = parts_of(node)
            waiting.append((node, len(parts)))
            waiting += [(part, None) for part in reversed(parts)]
        else:
            first = len(made) - count
            made[first:] = [made_of(node, made[first:])]
    return made[0]


def is_object(value):
    return is_dataclass(value) and not isinstance(value, type)


def parts_of_value(value):
    if isinstance(value, (list, tuple)):
        return value
    return [getattr(value, field.name) for field in fields(value)] if is_object(value) else ()


def term_of(value, parts):
    """Returns the term of a value with the terms of its parts."""
    match value:
        case bool():
            pass
        case int():
            return Integer(value)
        case str():
            return string(value)
        case bytes():
            return Text(value)
        case list():
            return List(parts)
        case tuple() if len(parts) != 1:
            return Application("", parts)
        case _ if is_object(value) and NAME.fullmatch(type(value).__name__):
            return Application(type(value).__name__, parts)
    raise TermError(f"no term stands for {value!r:.60}")


def parts_of_term(term):
    if term.annotations:
        raise TermError(f"no value stands for {shown(term)}, which has annotations")
    return () if isinstance(term, Integer) else term.parts


def value_of(term, parts, known):
    """Returns the value of a term with the values of its parts."""
    match term:
        case Integer():
            return term.value
        case List():
            return parts
        case Text() if parts:
            return Text(term.data, parts)
        case Text():
            try:
                return term.data.decode("utf-8", "surrogatepass")
            except UnicodeDecodeError:
                return term.data
        case Application(name=""):
            return tuple(parts)
    made_by = known.get((term.name, len(parts)))
    return made_by(*parts) if made_by else Application(term.name, parts)
