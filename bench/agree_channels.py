"""Modules made by hand for agree.py: each way in which a thread may learn that another one has made something, with the
order that it gives and without. `CHANNELS` has of each what it is; what `search --all` and `search --races` are to say,
`-` for no race, `race` or `mixed`; and the operations of the threads.

Mostly thread 1 stores into the word D and hands something on, and thread 0 loads D where it has seen that.
"""
from agree_modules import PAGE, Op, spawns

D, F, G, FAR, LIST = 8, 16, 20, 32, 48
store, load = Op("store", D, 4, False), Op("load", D, 4, False)
set_flag, set_other = Op("store", F), Op("store", G)
grow, size = Op("grow"), Op("size", test=2, then=(load,))
asleep, notify, notify_two = Op("wait", LIST), Op("notify", LIST), Op("notify", LIST, value=2)
for_5 = asleep._replace(timeout=5)
NONE, RACE, MIXED = ("-", "-"), ("race", "race"), ("mixed", "mixed")
BEHIND = ("-", "race")


def where(op, test, *then):
    return op._replace(test=test, then=then)


def seen(*then, flag=F):
    return where(Op("load", flag), 1, *then)


def at(kind, addr, width=4, atomic=False, **more):
    return Op(kind, addr, width, atomic, **more)


def spawn(threads):
    return Op("spawn", value=threads)


both, far = at("load", D, 8), at("load", PAGE, atomic=True)
over_pages, over_words = at("load", PAGE - 4, 8), at("store", 4, 8)
first_asleep, second_asleep = [at("store", D, 4), asleep], [at("store", D + 4, 4), asleep]
exchange, other_exchange = Op("cas", F), Op("cas", F, expected=7)
over, let = Op("store", F, value=2), Op("store", F, value=0)

# The name, what is said, thread 0 behind its spawns, and the others.
CHANNELS = [
    ("a word: plain flag", RACE, [where(at("load", F), 1, load)], [store, at("store", F)]),
    ("a word: atomic flag", NONE, [seen(load)], [store, set_flag]),
    ("a word: flag before the data", RACE, [seen(load)], [set_flag, store]),
    ("a word: two flags, of two threads", NONE, [seen(load, flag=G)], [store, set_flag], [seen(set_other)]),
    ("a word: flag stored by a third thread, which saw nothing", RACE, [seen(load)], [store, set_flag], [set_flag]),
    ("size: growth behind the data", NONE, [size], [store, grow]),
    ("size: growth before the data", RACE, [size], [grow, store]),
    ("a growth that sees a growth", NONE, [where(Op("grow", value=0), 2, load)], [store, grow]),
    ("a growth that fails since another one didn't", NONE, [where(Op("grow", value=1), -1, load)], [store, grow, grow]),
    ("a growth that fails always", RACE, [where(Op("grow", value=9), -1, load)], [store, grow]),
    ("bounds: atomic load behind the pages, then the data", RACE, [far, load], [store, grow]),
    ("bounds: the same behind an atomic flag", NONE, [seen(far, load)], [store, grow, set_flag]),
    ("bounds: the same behind a size", NONE, [where(Op("size"), 2, far, load)], [store, grow]),
    ("bounds: a plain store behind the pages", RACE, [at("store", PAGE)], [grow]),
    ("bounds: a notify behind the pages", RACE, [Op("notify", PAGE)], [grow]),
    ("bounds: a wait behind the pages", RACE, [Op("wait", PAGE)], [grow]),
    ("bounds: over the end of the pages", RACE, [over_pages], [grow]),
    ("bounds: before the end of the pages", NONE, [at("load", PAGE - 8, 8)], [grow]),
    ("bounds: behind all pages that may be", RACE, [at("load", 9 * PAGE)], [grow]),
    ("bounds: a growth that fails", NONE, [at("load", PAGE)], [Op("grow", value=9)]),
    ("bounds: a growth of no pages", RACE, [at("load", PAGE)], [Op("grow", value=0)]),
    ("spawn: the number behind the data", NONE, [where(spawn(2), 3, load)], [store, spawn(2)]),
    ("spawn: the number before the data", RACE, [where(spawn(2), 3, load)], [spawn(2), store]),
    ("spawn: the number that says it was first", RACE, [where(spawn(2), 2, load)], [store, spawn(2)]),
    ("notify: it counted a sleeper behind the data", NONE, [where(notify, 1, load)], [store, asleep]),
    ("notify: it counted a sleeper before the data", RACE, [where(notify, 1, load)], [asleep, store]),
    ("notify: it counted none", RACE, [where(notify, 0, load)], [store, asleep]),
    ("notify: two were counted", NONE, [where(notify_two, 2, both)], first_asleep, second_asleep),
    ("notify: one of two was counted", RACE, [where(notify_two, 1, both)], first_asleep, second_asleep),
    ("wait: woken behind the data", NONE, [where(asleep, 0, load)], [store, notify]),
    ("wait: woken before the data", RACE, [where(asleep, 0, load)], [notify, store]),
    ("wait: found another value", NONE, [where(Op("wait", F), 1, load)], [store, set_flag]),
    ("wait: found the value, with no time", NONE, [where(Op("wait", F, expected=1, timeout=0), 2, load)],
     [store, set_flag]),
    ("wait: no time, and no value that was stored", RACE, [where(asleep._replace(timeout=0), 2, load)], [store]),
    ("timeout: as a sleep until the other has ended", BEHIND, [where(for_5, 2, load)], [store]),
    ("timeout: the longer of two", BEHIND, [where(asleep._replace(timeout=9), 2, load)], [where(for_5, 2, store)]),
    ("timeout: then an atomic flag", NONE, [for_5, seen(load)], [store, set_flag]),
    ("narrow: neighbours, plain", NONE, [at("store", 9, 1)], [at("store", 8, 1), at("store", 10, 2)]),
    ("narrow: a byte in common, plain", RACE, [at("store", 9, 1)], [at("store", 8, 2)]),
    ("narrow: neighbours, atomic", NONE, [at("store", 9, 1, True)], [at("store", 8, 1, True)]),
    ("mixed: a byte of a half word, atomic", MIXED, [at("store", 9, 1, True)], [at("store", 8, 2, True)]),
    ("mixed: word and eight bytes, atomic", MIXED, [at("load", 24, 8, True)], [Op("add", 24)]),
    ("mixed: the same behind an atomic flag", NONE, [seen(at("load", 24, 8, True))], [Op("add", 24), set_flag]),
    ("mixed: a flag that is read more widely", MIXED, [where(at("load", F, 8, True), 1, load)], [store, set_flag]),
    ("two words: its second part", RACE, [load], [over_words]),
    ("two words: behind it", NONE, [at("load", 12)], [over_words]),
    ("two words: its second part behind an atomic flag", NONE, [seen(load)], [over_words, set_flag]),
    ("two words: flag before it", RACE, [seen(load)], [set_flag, over_words]),
    ("exchange: one that fails, beside a plain load", NONE, [at("load", F)], [other_exchange]),
    ("exchange: one that stores, beside a plain load", RACE, [at("load", F)], [exchange]),
    ("exchange: one that stores, behind the data", NONE, [seen(load)], [store, exchange]),
    ("exchange: one that fails, behind the data", RACE, [where(Op("load", F), 2, load)],
     [store, other_exchange], [over]),
    ("exchange: a lock", NONE, [where(exchange, 0, store, let)], [where(exchange, 0, load, let)]),
    ("exchange: written over", RACE, [seen(at("load", F), flag=G)], [exchange], [over, set_other]),
    ("exchange: written over, and read more widely", MIXED, [seen(at("load", F, 8, True), flag=FAR)], [exchange],
     [over, Op("store", FAR)]),
    ("exchange: written over, and a wait that reads more widely", MIXED,
     [seen(Op("wait", F, 8, expected=9), flag=FAR)], [exchange], [over, Op("store", FAR)]),
    ("exchange: written over by who reads it then", RACE, [over, at("load", F)], [exchange]),
    ("exchange: written over, and written plainly", RACE, [seen(at("store", F), flag=G)], [exchange],
     [over, set_other]),
    ("exchange: written over by an exchange", NONE, [seen(at("load", F), flag=G)], [exchange],
     [Op("xchg", F, value=2), set_other]),
    ("exchange: written over where it was seen", NONE, [seen(at("load", F), flag=G)], [exchange],
     [seen(over, set_other)]),
]


def bodies_of(thread, others):
    bodies = [thread, *others]
    return [spawns(len(bodies)) + thread, *others, []]
