"""Many items in groups of twelve at most, as one call writes: what the parts of a struct or a variant of many fields are."""

# the most places of a tuple here, and the most parts that are written in one call
TUPLE = 12


class Node:
    """Some fields of many, which are a tuple within the tuple of all fields: its places, each a field or a node, its number,
    and the place of this one, as `.1.0`."""

    def __init__(self, items):
        self.items = items
        self.number = ''
        self.path = ''


def grouped(items):
    """Items as a tree whose nodes have twelve places at most, and a list of its nodes, each before those within it."""
    while len(items) > TUPLE:
        count = -(-len(items) // TUPLE)
        ends = [len(items) * place // count for place in range(count + 1)]
        items = [Node(items[start:end]) for start, end in zip(ends, ends[1:])]
    root = Node(items)
    nodes = [root]
    for node in nodes:
        for place, item in enumerate(node.items):
            if isinstance(item, Node):
                item.number, item.path = len(nodes), '%s.%d' % (node.path, place)
                nodes.append(item)
    return nodes


def leaves_of(node):
    """The nodes whose places are fields, in order."""
    inner = [leaf for item in node.items if isinstance(item, Node) for leaf in leaves_of(item)]
    return inner or [node]


def flat_fields(node):
    """The fields of a node and of those within it."""
    return [field for item in node.items for field in (flat_fields(item) if isinstance(item, Node) else [item])]


def parts(items, make):
    """Items as a tuple; more than twelve are in tuples within it."""
    def made(node):
        return make([made(item) if isinstance(item, Node) else item for item in node.items])

    return items[0] if len(items) == 1 else made(grouped(items)[0])


def ghost_parts(items):
    """Names in the form of the type of the parts."""
    return shaped(grouped(items)[0], iter(items))


def places_of(items):
    """Where each item is in the tuple `v` of all."""
    if len(items) == 1:
        return ['v']
    return ['v%s.%d' % (node.path, place) for node in leaves_of(grouped(items)[0]) for place in range(len(node.items))]


def shaped(node, texts):
    """Texts in the form of a node, as lists within a list."""
    return [shaped(item, texts) if isinstance(item, Node) else next(texts) for item in node.items]
