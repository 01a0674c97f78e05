"""An independent model of the nets and the yard in memory: what each line of net_readings answers.

    python3 tests/model/nets.py < crates/net_readings/stdin | diff - crates/net_readings/stdout
"""
import sys


class Net:
    """Every event that waits stands in one list with its place; the next is the least by place."""

    def __init__(self):
        self.here, self.held, self.live, self.marked = [], set(), set(), set()
        self.events, self.sent = [], []

    def next(self):
        if not self.events:
            return "nothing"
        event = min(self.events)
        self.events.remove(event)
        place, link, what, text = event
        if what == "opened":
            self.held.add(link)
            return f"{link} opened"
        if what == "left":
            self.held.discard(link)
            return f"{link} left"
        return f"{link} said {text}"


def main():
    nets, way, place = [Net(), Net()], None, 0
    room, works, count, full = 0, {}, 0, 0
    for line in sys.stdin:
        line = line.rstrip("\n")
        print(line)
        form, _, rest = line.partition(" ")
        first, _, rest = rest.partition(" ")
        number = int(first) if first.isdigit() else 0
        name, _, text = rest.partition(" ")
        link = int(name) if name.isdigit() else 0
        net = nets[number % 2]
        place += 1
        say = lambda answer: print(f"  {answer}")
        truth = lambda answer: say("true" if answer else "false")
        if form == "open":
            truth(link not in net.here)
            if link not in net.here:
                net.here.append(link)
                net.live.add(link)
                net.events.append((place, link, "opened", ""))
        elif form in ("say", "drop"):
            truth(link in net.live)
            if link in net.live:
                net.events.append((place, link, "said" if form == "say" else "left", text))
                if form == "drop":
                    net.live.discard(link)
        elif form == "failnet":
            truth(link in net.here)
            if link in net.here:
                net.marked.add(link)
        elif form == "live":
            truth(link in net.live)
        elif form == "take":
            say(net.next())
        elif form == "give":
            if link in net.marked:
                net.marked.discard(link)
                net.live.discard(link)
                say("failed")
            else:
                net.sent.append(f"{link} {text}")
                say("sent")
        elif form == "drain":
            for frame in net.sent:
                say(frame)
            net.sent = []
        elif form == "release":
            truth(link in net.held)
            mine = [e for e in net.events if e[1] == link]
            way = (link, mine, link in net.live, link in net.marked) if link in net.held else None
            net.events = [e for e in net.events if e[1] != link]
            net.here = [l for l in net.here if l != link]
            for some in (net.held, net.live, net.marked):
                some.discard(link)
        elif form == "adopt":
            if way is not None:
                link, mine, live, marked = way
                way = None
                say(link)
                net.here.append(link)
                net.held.add(link)
                net.events += mine
                if live:
                    net.live.add(link)
                if marked:
                    net.marked.add(link)
        elif form == "yard":
            room = number
        elif form == "offer":
            if len(works) < room:
                count += 1
                works[count] = (number, rest)
                say("taken")
            else:
                full += 1
                say(f"given back {rest}")
        elif form == "out":
            if number in works:
                doc, work = works.pop(number)
                say(f"{number} of {doc}: {work}")
            else:
                say("no such work")
        elif form == "held":
            for n in sorted(works):
                say(f"{n} of {works[n][0]}: {works[n][1]}")
        elif form == "full":
            say(full)


main()
