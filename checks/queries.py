"""Queries of a search: trees, drawn from numbers, and the texts that spell them by docs/reference/search.md.

A query is an `Any` of one or more `All` of one or more items, each of which is `Every`, an `At`, a `Not` of an item, or a
`Group`, which is a query in parentheses.
"""
import collections

from objects import KEYS, WHOLES, WORDS

Any = collections.namedtuple("Any", "queries")
All = collections.namedtuple("All", "items")
Not = collections.namedtuple("Not", "item")
Group = collections.namedtuple("Group", "query")
Every = collections.namedtuple("Every", "")
At = collections.namedtuple("At", "field wanted")

# what is wanted of a value: to be a text, to be as signs say, or to lie between two bounds, either of which may be None
Equal = collections.namedtuple("Equal", "text")
Like = collections.namedtuple("Like", "signs")
Between = collections.namedtuple("Between", "low high with_ends")
# signs other than a character
CHARACTERS, CHARACTER = object(), object()


# ---- drawn


def wanted_of(numbers, word):
    """What a value is wanted to be, such that this one mostly is."""
    form = numbers.below(8)
    if form < 3:
        return Equal(word)
    if form < 6:
        signs = list(word)
        for _ in range(1 + numbers.below(2)):
            start = numbers.below(len(signs) + 1)
            if numbers.below(2):
                signs[start : start + 1] = [CHARACTER]
            else:
                signs[start : start + numbers.below(4)] = [CHARACTERS]
        return Like(signs)
    other = numbers.one_of([word, numbers.one_of(WORDS), str(numbers.one_of(WHOLES)), None])
    bounds = [word, other] if numbers.below(3) else [other, word]
    if None not in bounds and numbers.below(8):
        bounds.sort(key=str.encode)
    return Between(*bounds, numbers.below(3) > 0)


def item(numbers, pairs, depth):
    form = numbers.below(12)
    if form == 0:
        return Every()
    if form < 3:
        return Not(item(numbers, pairs, depth))
    if form < 5 and depth:
        return Group(query(numbers, pairs, depth - 1))
    field, word = numbers.one_of(pairs)
    return At(numbers.one_of(KEYS) if numbers.below(12) == 0 else field, wanted_of(numbers, word))


def query(numbers, pairs, depth=2):
    """A query whose terms are made of these pairs."""
    some = lambda counts, part: [part() for _ in range(numbers.one_of(counts))]
    return Any(some([1, 1, 2, 3], lambda: All(some([1, 1, 1, 2, 3], lambda: item(numbers, pairs, depth)))))


# ---- spelled


def escaped(numbers, characters, stands):
    """The characters, with a `\\` before each that doesn't stand for itself, and now and then before one that does."""
    also = numbers.below(8 * len(characters) + 1)
    return "".join(sign if stands(sign) and place != also else "\\" + sign for place, sign in enumerate(characters))


def field_text(numbers, field):
    written = escaped(numbers, field, lambda sign: sign.isalnum() or sign in "_-.@/")
    return "\\" + written if written[0] == "-" else written


def word_text(numbers, characters):
    return escaped(numbers, characters, lambda sign: not sign.isspace() and sign not in '()[]{}"\\~^*?')


def plain_text(numbers, wanted):
    """A text, as a word or in quotes."""
    if wanted == "" or numbers.below(3) == 0:
        return '"%s"' % escaped(numbers, wanted, lambda sign: sign not in '"\\')
    return word_text(numbers, wanted)


def wanted_text(numbers, wanted):
    if isinstance(wanted, Equal):
        return plain_text(numbers, wanted.text)
    if isinstance(wanted, Like):
        as_they_are = {CHARACTERS: "*", CHARACTER: "?"}
        return "".join(as_they_are.get(sign) or word_text(numbers, sign) for sign in wanted.signs)
    low, high = ("*" if bound is None else plain_text(numbers, bound) for bound in (wanted.low, wanted.high))
    return ("[%s TO %s]" if wanted.with_ends else "{%s TO %s}") % (low, high)


def query_text(numbers, query):
    """The text of a query, now and then with more white space than it needs, or with less beside parentheses."""
    gap = lambda: numbers.one_of([" ", " ", " ", " ", "  ", "\t", " \n"])
    joined = lambda parts, word: (gap() + word + gap()).join(query_text(numbers, part) for part in parts)
    if isinstance(query, Any):
        return joined(query.queries, "OR")
    if isinstance(query, All):
        return joined(query.items, "AND")
    if isinstance(query, Not):
        may_lack = isinstance(query.item, Group) and numbers.below(2)
        return "NOT" + ("" if may_lack else gap()) + query_text(numbers, query.item)
    if isinstance(query, Group):
        return "(%s%s%s)" % (numbers.one_of(["", "", " "]), query_text(numbers, query.query), numbers.one_of(["", "", " "]))
    if isinstance(query, Every):
        return "*:*"
    return "%s:%s" % (field_text(numbers, query.field), wanted_text(numbers, query.wanted))
