#!/usr/bin/env python3
"""Writes the program's sample: python3 tools/sample.py > crates/replay/stdin

What each line should give is worked out here, apart from the program, and printed
beside it with --expect, so that the two can be compared:
    diff <(python3 tools/sample.py --expect) crates/replay/stdout
"""
import sys

out, expected = [], []


def say(line, *answers):
    out.append(line)
    expected.extend(answers)


def note(text):
    out.append("# " + text)


def hexed(data):
    return data.hex() or "-"


def word(n):
    return bytes([n // 256, n % 256])


def text(t):
    return word(len(t)) + t


def roll(texts):
    return word(len(texts)) + b"".join(text(t) for t in texts)


def record(reply=None, rank=None, mute=None, cc=(), ignored=()):
    bits, fields = 0, b""
    for bit, value in ((1, reply), (2, rank), (4, mute)):
        if value is not None:
            bits |= bit
            fields += bytes([value])
    for bit, texts in ((8, cc), (16, ignored)):
        if texts:
            bits |= bit
            fields += roll(texts)
    return bytes([bits]) + fields


FIRST = record(0, 0, 0)


def entry(key, rec=b"\0"):
    return text(key) + rec


def book(entries, defaults=FIRST, count=None):
    return defaults + word(len(entries) if count is None else count) + b"".join(entries)


def address(raw, part, domain):
    note(raw.decode())
    say("address " + hexed(raw), f"address {hexed(part)} {hexed(part.lower())} {'none' if domain is None else hexed(domain.lower())}")


def accepted(why, data):
    note(why)
    say("open " + hexed(data), "accepted")


def refused(why, number, layer, place, data):
    note(why)
    say("open " + hexed(data), f"fault {number} {layer} book {place}")


def write(data, size, byte):
    tray = bytes([byte]) * size
    line = f"write packed {size}:{byte:02x}"
    if len(data) <= size:
        say(line, f"answer {hexed(data)} tray {hexed(data + tray[len(data):])}")
    else:
        say(line, f"fault 6 router tray {len(data)} tray {hexed(tray)}")


# Who is mailed, worked out from docs/RECIPIENTS.md.

AUTHOR, LIST, RECIPIENTS = 1, 2, 4
NONE, ONLY_AUTHOR, ALL = 0, 1, 2
BLANKS = b" \t"
KNOWN = (
    b"vger.kernel.org lists.linux.dev lists.infradead.org lists.freedesktop.org lists.osuosl.org kvack.org"
    b" lists.open-mesh.org lists.sourceforge.net lists.oss.qualcomm.com lists.subsurface-divelog.org acpica.org"
    b" lists.linaro.org lists.01.org lists.xenproject.org lists.ozlabs.org"
).split()


def outside(t):
    """The places outside the quoted parts."""
    places, at = [], 0
    while at < len(t):
        if t[at] == 0x22:
            end = at + 1
            while end < len(t) and t[end] != 0x22:
                end += 2 if t[end] == 0x5C else 1
            if end >= len(t):
                return places + list(range(at, len(t)))
            at = end + 1
        else:
            places.append(at)
            at += 1
    return places


def bare(t):
    t = t.strip(BLANKS)
    angles = [at for at in outside(t) if t[at] in b"<>"]
    for n, at in enumerate(angles):
        if t[at] == 0x3C:
            ends = [end for end in angles[n:] if t[end] == 0x3E]
            if ends:
                t = t[at + 1 : ends[0]].strip(BLANKS)
            break
    return t.lower()


def domain(t):
    b = bare(t)
    ats = [at for at in outside(b) if b[at] == 0x40]
    return b[ats[0] + 1 :] if ats else None


class Policy:
    def __init__(self, defaults, lists=()):
        self.defaults = dict(dict(reply=0, rank=NONE, mute=0, cc=[], ignored=[]), **defaults)
        self.lists = [(key, dict(dict(reply=None, rank=None, mute=None, cc=[], ignored=[]), **rec)) for key, rec in lists]

    def book(self):
        return book([entry(key, record(**rec)) for key, rec in self.lists], record(**self.defaults))

    def is_list(self, t):
        return bare(t) in [bare(key) for key, _ in self.lists] or domain(t) in KNOWN

    def named(self, to, cc):
        bares = {bare(t) for t in to + cc}
        rules = []
        for key, rec in self.lists:
            if bare(key) in bares:
                rule = {name: self.defaults[name] if rec[name] is None else rec[name] for name in ("reply", "rank", "mute")}
                rules.append((key, dict(rule, cc=rec["cc"])))
        return rules

    def sent(self, named, to, cc, author, bot):
        governing = [rule for _, rule in named] or [self.defaults]
        to_author = any(rule["reply"] & AUTHOR for rule in governing)
        copies = (sum((rule["cc"] for _, rule in named), []) if named else []) + self.defaults["cc"]
        counted = {bare(t) for t in to + cc if not self.is_list(t)} - {b"", bare(bot)} - {bare(t) for t in copies}
        if to_author:
            counted.discard(bare(author))
        individuals = len(counted) <= 128 and any(rule["reply"] & RECIPIENTS for rule in governing)

        def qualifies(t):
            if not self.is_list(t):
                return individuals
            if named:
                return any(rule["reply"] & LIST and bare(key) == bare(t) for key, rule in named)
            return bool(self.defaults["reply"] & LIST)

        def spelled(candidates, without=()):
            spellings = {}
            for t in candidates:
                free = not bare(bot) or bare(bot) not in t.lower()
                if bare(t) and free and bare(t) not in without:
                    spellings.setdefault(bare(t), []).append(t.strip(BLANKS))
            return [next((t for t in ts if b"<" in t), ts[0]) for ts in spellings.values()]

        in_to = spelled(([author] if to_author else []) + [t for t in to if qualifies(t)])
        in_cc = spelled([t for t in cc if qualifies(t)] + copies, {bare(t) for t in in_to})
        return (in_to, in_cc) if in_to or in_cc else None

    def first(self, to, cc, author, bot):
        named = self.named(to, cc)
        governing = [rule for _, rule in named] or [self.defaults]
        ignored = self.defaults["ignored"] + sum((rec["ignored"] for _, rec in self.lists), [])
        if any(t.lower() in author.lower() for t in ignored):
            return None
        if bare(bot) and bare(author) and bare(bot) in author.lower():
            return None
        if any(rule["mute"] for rule in governing):
            return None
        sent = self.sent(named, to, cc, author, bot)
        return sent and sent + (max(rule["rank"] for rule in governing),)

    def positive(self, to, cc, author, bot):
        first = self.first(to, cc, author, bot)
        if first is None or first[2] == NONE:
            return None
        if first[2] == ONLY_AUTHOR:
            if not bare(author) or (bare(bot) and bare(bot) in author.lower()):
                return None
            return [author.strip(BLANKS)], []
        named = self.named(to, cc)
        if not named:
            return first[:2]
        left = {ALL: AUTHOR | LIST | RECIPIENTS, ONLY_AUTHOR: AUTHOR, NONE: 0}
        less = [(key, dict(rule, reply=rule["reply"] & left[rule["rank"]], cc=rule["cc"] if rule["rank"] == ALL else [])) for key, rule in named]
        return self.sent(less, to, cc, author, bot)


def envelope(to, cc, rank=NONE):
    bits = 1 + (2 if to else 0) + (4 if cc else 0) + {NONE: 0, ONLY_AUTHOR: 8, ALL: 16}[rank]
    return bytes([bits]) + (roll(to) if to else b"") + (roll(cc) if cc else b"")


def ask(is_first, to, cc, author, bot, slots, slot, size, byte):
    word = "resolve" if is_first else "resolve_positive"
    return f"{word} packed {hexed(to)} {hexed(cc)} {hexed(author)} {hexed(bot)} {slots}:{slot:04x} {size}:{byte:02x}"


def resolve(policy, to=(), cc=(), author=b"Ann <a@x.test>", bot=b"Robot <bot@x.test>", first=True, spare=3, slots=9249, slot=0xFFFF, byte=0xEE):
    """A resolve whose tray has so many bytes to spare; where these are less than none, it is refused."""
    to, cc = list(to), list(cc)
    answer = (policy.first if first else policy.positive)(to, cc, author, bot)
    data = envelope(*answer) if answer else b"\0"
    size = len(data) + spare
    line = ask(first, roll(to), roll(cc), author, bot, slots, slot, size, byte)
    tray = bytes([byte]) * size
    if spare < 0:
        say(line, f"fault 6 router tray {len(data)} tray {hexed(tray)} scratch kept")
        return
    people = ["  mute" if first else "  nothing"]
    if answer:
        people = ["  to " + t.decode() for t in answer[0]] + ["  cc " + t.decode() for t in answer[1]]
        people += ["  rank " + ("none", "author", "all")[answer[2]]] if first else []
    say(line, f"answer {hexed(data)} tray {hexed(data + tray[len(data):])} scratch zero", *people)


def both(policy, *args, **kwargs):
    resolve(policy, *args, **kwargs)
    resolve(policy, *args, first=False, **kwargs)


def resolve_refused(why, number, layer, part, place, to=roll([]), cc=roll([]), author=b"a@x.test", bot=b"", slots=9249):
    note(why)
    for first in (True, False):
        say(ask(first, to, cc, author, bot, slots, 0xABCD, 2, 0xEE), f"fault {number} {layer} {part} {place} tray eeee scratch kept")


note("The address in a text, its bare and its domain.")
out.append("")
address(b"Ann <A@X.test>", b"A@X.test", b"X.test")
address(b" b@x.test ", b"b@x.test", b"x.test")
address(b"<c@x.test", b"<c@x.test", b"x.test")
address(b'"L <l@x.test>" <d@x.test>', b"d@x.test", b"x.test")
address(b"<>", b"", None)
address(b'"e <f@x.test>', b"f@x.test", b"x.test")
address(b'"a \\"b\\" <c@x>" <D@Lists.Linux.dev>', b"D@Lists.Linux.dev", b"Lists.Linux.dev")
address(b'"q@q"@x.test', b'"q@q"@x.test', b"x.test")
address(b"nobody", b"nobody", None)
address(b"a@b@c", b"a@b@c", b"b@c")
address(b"< g@x.test > <h@x.test>", b"g@x.test", b"x.test")
note("no bytes at all")
say("address -", "address - - none")

out.append("")
note("Packed books: opened, and written out as the same bytes.")
first_hour = book([])
accepted("the first hour's book", first_hour)
write(first_hour, 6, 0xAA)
write(first_hour, 8, 0xAA)
write(first_hour, 5, 0xAA)

several = book(
    [
        entry(b"L <l@x.test>".replace(b" ", b""), record(6, cc=[b"s@x.test"])),
        entry(b"l@x.test", record(rank=2, mute=1)),
        entry(b"m@x.test", record(ignored=[b"", b"spam"])),
        entry(b"n@x.test", record(7, 1, 0, [b"", b"Ann <a@y.test>"], [b"bot"])),
    ],
    record(5, 1, 0, [b"all@x.test"], [b"nobody@"]),
)
accepted("several lists, two of them with the same bare", several)
write(several, len(several), 0)

out.append("")
note("Each refusal of opening. None of them closes the book that is open.")
refused("more than 65,535 bytes", 16, "book", 65535, b"\7" + b"\0" * 65535)
refused("no defaults at all", 11, "record", 0, b"")
refused("an unknown bit in the defaults", 11, "record", 0, b"\x27\0\0\0\0\0")
refused("defaults without the mute bit", 11, "record", 0, b"\3\0\0\0\0")
refused("a reply of 8", 11, "record", 1, b"\7\x08\0\0\0\0")
refused("a rank of 3", 11, "record", 2, b"\7\0\3\0\0\0")
refused("a mute of 2", 11, "record", 3, b"\7\0\0\2\0\0")
refused("defaults cut short", 11, "record", 3, b"\7\0\0")
refused("a cc roll with no text", 11, "roll", 4, b"\x0f\0\0\0\0\0\0\0")
refused("a cc roll with 33 texts", 11, "roll", 4, b"\x0f\0\0\0" + roll([b""] * 33) + b"\0\0")
refused("a cc text that runs past the end", 11, "roll", 6, b"\x0f\0\0\0\0\1\0\x09ab\0\0")
refused("a record with a byte past its limit", 11, "record", 1024, record(0, 0, 0, [b"a" * 1017]) + b"\0\0")
refused("a bad byte in an ignored text", 12, "text", 9, record(0, 0, 0, (), [b"a\n"]) + b"\0\0")
refused("no number of lists", 16, "book", 4, FIRST + b"\0")
refused("257 lists", 16, "book", 4, book([], count=257))
refused("a key that is not all there", 16, "book", 6, FIRST + b"\0\1\0\x09l@x")
refused("a key of 255 bytes", 7, "book", 8 + 254, book([entry(b"l@x." + b"a" * 251)]))
refused("a bad byte in a key", 7, "text", 9, book([entry(b"l\x7f@x.test")]))
refused("a key without an at sign", 8, "book", 6, book([entry(b"x.test")]))
refused("a key whose only at sign is quoted", 8, "book", 6, book([entry(b'"l@x.test"')]))
refused("a key without a dot in its domain", 9, "book", 6, book([entry(b"l@x")]))
refused("a key with nothing before its at sign", 9, "book", 6, book([entry(b"@x.test")]))
refused("a key with a blank inside", 9, "book", 6, book([entry(b"l l@x.test")]))
refused("a key with an empty bare", 10, "book", 6, book([entry(b"<>@x.test")]))
refused("a record of a list that is not whole", 11, "record", 17, book([entry(b"l@x.test", b"\1")]))
refused("a cc text with the list's own bare", 13, "book", 19, book([entry(b"l@x.test", record(cc=[b"L <L@X.test>"]))]))
refused("a key that stands twice", 17, "book", 17, book([entry(b"l@x.test"), entry(b"l@x.test")]))
refused("a key that falls", 17, "book", 17, book([entry(b"m@x.test"), entry(b"l@x.test")]))
refused("equal bares with the keys falling", 17, "book", 17, book([entry(b"l@x.test"), entry(b"L@x.test")]))
refused("a byte left over", 18, "book", 6, first_hour + b"\0")
note("the book with several lists is still open")
write(several, len(several) + 1, 0xFF)

out.append("")
full = book([entry(b"%03d@x.test" % n) for n in range(256)])
accepted("a book of 256 lists", full)
write(full, len(full), 0)
refused("a book of 256 lists of which the last does not rise", 17, "book", 6 + 255 * 13, book([entry(b"%03d@x.test" % n) for n in list(range(255)) + [0]]))

out.append("")
note("Who is mailed. The policy of a few lists, and the mails of a day.")
netdev, mm, quiet = b"netdev@vger.kernel.org", b"linux-mm@kvack.org", b"quiet@lists.x.test"
policy = Policy(
    dict(reply=AUTHOR | LIST, rank=ONLY_AUTHOR, cc=[b"Archive <archive@x.test>"], ignored=[b"spam"]),
    [
        (mm, dict(reply=AUTHOR, cc=[b"Mel <mel@mm.test>"])),
        (netdev, dict(reply=AUTHOR | LIST | RECIPIENTS, rank=ALL)),
        (quiet, dict(mute=1)),
    ],
)
accepted("three lists", policy.book())
note("a patch to netdev and a maintainer: all of them hear of it, and the archive")
both(policy, [netdev], [b"Jo <jo@x.test>", b"jo@X.test", b"ann@y.test"])
note("to the list for memory management: its author, and who always has a copy")
both(policy, [mm], [b"jo@x.test"])
note("to both: each grants its own")
both(policy, [netdev, mm], [b"jo@x.test"])
note("to a list that no policy names: the defaults")
both(policy, [b"linux-kernel@vger.kernel.org"], [b"jo@x.test"])
note("to nobody that is named, without a list")
both(policy, [b"jo@x.test"])
note("the quiet list is muted, whatever else is named")
both(policy, [netdev, quiet], [b"jo@x.test"])
note("an author whom the defaults ignore")
both(policy, [netdev], author=b"Bulk <Spammer@x.test>")
note("an author without an address")
both(policy, [netdev], author=b"")
note("a name that looks like a list names nothing")
both(policy, [b'"netdev@vger.kernel.org" <jo@x.test>'])

out.append("")
note("Quoted names and spellings.")
both(policy, [netdev, b' "Doe, \\"J\\" <x>" <J@x.test> ', b'"k <l@x.test>', b"< m@x.test > tail"], [b"j@x.test", b"<j@X.TEST>", b"l@x.test", b"L <l@x.test>"])
both(policy, [netdev, b'"q@q"@x.test', b"", b"<>", b" \t", b"a\tb@x.test"], author=b'"Ann \\"A\\"" <a@x.test>')

out.append("")
note("The bot as author, in To and in Cc, and where its address stands inside another.")
both(policy, [netdev], author=b"Robot <bot@x.test>")
both(policy, [netdev, b"bot@x.test", b"robot@x.test", b"Bot <BOT@X.test>"], [b"jo@x.test", b"bot@x.test", b"bot@x.test <li@x.test>"])
both(policy, [netdev, b"bot@x.test <jo@x.test>", b"jo@x.test"])
note("no bot")
both(policy, [netdev, b"bot@x.test"], author=b"bot@x.test", bot=b"")

out.append("")
note("Each rank, without a named list and with one.")
listed = b"l@x.test"
for rank in (NONE, ONLY_AUTHOR, ALL):
    ranked = Policy(dict(reply=7, rank=rank), [(listed, dict(rank=(rank + 1) % 3, cc=[b"c@x.test"]))])
    accepted(("none", "author", "all")[rank] + " by the defaults", ranked.book())
    both(ranked, [b"b@x.test"], [b"d@x.test"])
    both(ranked, [b"b@x.test", listed], [b"d@x.test"])
mixed = Policy(dict(cc=[b"all@x.test"]), [(b"k@x.test", dict(reply=7, rank=ONLY_AUTHOR, cc=[b"kc@x.test"])), (listed, dict(reply=LIST | RECIPIENTS, rank=ALL, cc=[b"lc@x.test"])), (b"m@x.test", dict(reply=7, rank=NONE))])
accepted("three named lists of three ranks", mixed.book())
both(mixed, [b"k@x.test", b"l@x.test", b"m@x.test"], [b"jo@x.test"])

out.append("")
note("Two keys with the same bare: a mail to it names both.")
twice = Policy(dict(), [(b"L<l@x.test>", dict(reply=LIST, rank=ONLY_AUTHOR)), (b"l@x.test", dict(reply=AUTHOR, cc=[b"c@x.test"]))])
accepted("a list under two keys", twice.book())
both(twice, [b"l@x.test"])
both(twice, [], [b"The list <L@x.test>"])
both(twice, [b"jo@x.test"])

out.append("")
note("128 individuals are mailed. Of 129 none is.")
open_to_all = Policy(dict(reply=AUTHOR | RECIPIENTS, rank=ALL, cc=[b"c@x.test"]))
accepted("individuals are replied to", open_to_all.book())
many = [b"%d@y.test" % n for n in range(129)]
both(open_to_all, many[:100], many[100:128])
both(open_to_all, many[:100], many[100:])
note("the author, the bot, the copies and second spellings are not counted")
both(open_to_all, many[:100] + [b"a@x.test", b"c@x.test", b"bot@x.test"], many[100:128] + [b"N <0@y.test>", b""])

out.append("")
note("A tray that the answer fits exactly, and trays that are one byte short.")
both(open_to_all, [b"jo@x.test"], spare=0)
both(open_to_all, [b"jo@x.test"], spare=-1)
both(open_to_all, [b"jo@x.test"], author=b"bot@x.test", spare=0)
both(open_to_all, [b"jo@x.test"], author=b"bot@x.test", spare=-1)
note("more slots than are needed")
both(open_to_all, [b"jo@x.test"], slots=9300, slot=1)
both(open_to_all, [b"jo@x.test"], slots=9300, slot=1, spare=-1)

out.append("")
note("Each refusal of a resolve, in the order of the questions. None changes a slot or a byte.")
bad = text(b"a\x7f")
resolve_refused("no count of To", 1, "roll", "to", 0, to=b"\0", cc=b"\0")
resolve_refused("513 texts in To", 1, "roll", "to", 0, to=roll([b""] * 513))
resolve_refused("a text of To that runs past the end", 1, "roll", "to", 5, to=word(2) + text(b"a") + word(2) + b"b")
resolve_refused("a text of To of 999 bytes", 1, "roll", "to", 2, to=roll([b"a" * 999]))
resolve_refused("a byte behind To", 1, "roll", "to", 2, to=roll([]) + b"\0", cc=b"\0")
resolve_refused("no bytes of Cc", 2, "roll", "cc", 0, cc=b"", author=b"a" * 999)
resolve_refused("a missing length in Cc", 2, "roll", "cc", 2, cc=word(1))
resolve_refused("a byte behind Cc", 2, "roll", "cc", 5, cc=roll([b"a"]) + b"\0")
resolve_refused("an author of 999 bytes", 3, "router", "author", 998, author=b"a" * 999, bot=b"a" * 999)
resolve_refused("a bot of 999 bytes", 3, "router", "bot", 998, bot=b"a" * 999, to=word(1) + bad)
resolve_refused("a bad byte in To", 4, "text", "to", 8, to=word(2) + text(b"a") + bad, cc=word(1) + bad)
resolve_refused("a bad byte in Cc", 4, "text", "cc", 5, cc=word(1) + bad, author=b"\n")
resolve_refused("a bad byte in the author", 4, "text", "author", 1, author=b"a\n", bot=b"\n")
resolve_refused("a bad byte in the bot", 4, "text", "bot", 0, bot=b"\n", slots=1)
resolve_refused("a scratch of 9,248 slots", 5, "router", "scratch", 9249, slots=9248)
note("no slots at all, which are all 0 then as before, and a scratch that holds 0")
say(ask(True, roll([]), roll([]), b"", b"", 0, 7, 1, 0xEE), "fault 5 router scratch 9249 tray ee scratch zero")
say(ask(True, roll([]), roll([]), b"", b"", 9, 0, 1, 0xEE), "fault 5 router scratch 9249 tray ee scratch zero")

print("\n".join(expected if "--expect" in sys.argv[1:] else out))
