"""A model of the index written from docs/CALLS.md, with pages as objects; it shares nothing with the crates.
The answers of the days in this folder are its own: python3 examples/model.py load < crates/load_runner/stdin
"""
import sys

FREE, LIVE, GONE = 0, 1, 2

class Page:
    def __init__(self, state=FREE, level=0, link=0, start=None, end=None, entries=None):
        self.state, self.level, self.link, self.start, self.end = state, level, link, start, end
        self.entries = entries if entries is not None else []

class Index:
    def __init__(self, pages, is_key, rank):
        self.total, self.is_key, self.rank = pages, is_key, rank
        self.made = False

    def format(self, fill):
        if not 4 <= fill <= 18:
            return 2, 0
        self.fill, self.root, self.made = fill, 1, True
        self.p = [Page() for _ in range(self.total)]
        self.p[1] = Page(LIVE)
        for n in range(2, self.total):
            self.p[n].link = n + 1 if n + 1 < self.total else 0
        self.free = 2 if self.total > 2 else 0
        self.jobs = [None] * 32
        return 20, self.total

    def begin(self, c, kind, key, value):
        if c > 31: return 4, 0
        if self.jobs[c]: return 5, 0
        if kind not in (1, 2, 3) or not self.is_key(key): return 7, 0
        self.jobs[c] = [kind, key, value, self.root]
        return 20, 0

    def withdraw(self, c):
        if c > 31: return 4, 0
        if not self.jobs[c]: return 6, 0
        page = self.jobs[c][3]
        self.jobs[c] = None
        return 28, page

    def take(self):
        n = self.free
        self.free = self.p[n].link
        return n

    def split(self, n):
        if self.free == 0: return 9, 0
        new, old = self.take(), self.p[n]
        cut = len(old.entries) - self.fill // 2
        upper = old.entries[cut:]
        self.p[new] = Page(LIVE, old.level, old.link, upper[0][0], old.end, upper)
        old.entries, old.link, old.end = old.entries[:cut], new, upper[0][0]
        return 22, new

    def turn(self, c):
        if c > 31: return 4, 0
        job = self.jobs[c]
        if not job: return 6, 0
        kind, key, value, n = job
        page, r = self.p[n], self.rank
        if page.state == GONE or (page.end is not None and r(key) >= r(page.end)):
            job[3] = page.link
            return 21, page.link
        if page.level:
            child = page.entries[0][1]
            for k, v in page.entries[1:]:
                if r(k) <= r(key): child = v
            job[3] = child
            return 21, child
        held = [i for i, (k, _) in enumerate(page.entries) if r(k) == r(key)]
        if kind == 1:
            answer = (23, page.entries[held[0]][1]) if held else (24, 0)
        elif kind == 3:
            answer = (27, page.entries.pop(held[0])[1]) if held else (24, 0)
        elif held:
            answer = 26, page.entries[held[0]][1]
        elif len(page.entries) < self.fill:
            at = next((i for i, (k, _) in enumerate(page.entries) if r(k) > r(key)), len(page.entries))
            page.entries.insert(at, (key, value))
            answer = 25, 0
        else:
            return self.split(n)
        self.jobs[c] = None
        return answer

    def inner(self, n):
        return 1 <= n < self.total and self.p[n].state == LIVE and self.p[n].level > 0

    def post(self, n):
        if not self.inner(n): return 10, 0
        page, r = self.p[n], self.rank
        for i, (_, child) in enumerate(page.entries):
            c = self.p[child]
            bound = page.entries[i + 1][0] if i + 1 < len(page.entries) else page.end
            if c.end is not None and (bound is None or r(c.end) < r(bound)):
                if len(page.entries) == self.fill: return self.split(n)
                page.entries.insert(i + 1, (c.end, c.link))
                return 29, c.link
        return 11, 0

    def merge(self, n):
        if not self.inner(n): return 10, 0
        page = self.p[n]
        for i in range(len(page.entries) - 1):
            a, b = page.entries[i][1], page.entries[i + 1][1]
            x, y = self.p[a], self.p[b]
            if x.link == b and (len(x.entries) + len(y.entries) <= self.fill // 2 or not x.entries or not y.entries):
                x.entries, x.link, x.end = x.entries + y.entries, y.link, y.end
                self.p[b] = Page(GONE, y.level, a, y.start)
                page.entries.pop(i + 1)
                return 30, b
        return 11, 0

    def raise_(self):
        old = self.p[self.root]
        if old.link == 0: return 11, 0
        if self.free == 0: return 9, 0
        new = self.take()
        self.p[new] = Page(LIVE, old.level + 1, 0, None, None, [((0, 0), self.root)])
        self.root = new
        return 31, new

    def sweep(self):
        stood = {j[3] for j in self.jobs if j}
        pointed = {q.link for q in self.p if q.state == GONE}
        found = [n for n in range(1, self.total) if self.p[n].state == GONE and n not in stood and n not in pointed]
        for n in found:
            self.p[n] = Page(FREE, 0, self.free)
            self.free = n
        return (32, len(found)) if found else (11, 0)

def in_form(line):
    if len(line) != 73 or line[-1] != "\n": return None
    at, six = 0, []
    for w in (2, 5, 2, 21, 21, 21):
        text = line[at:at + w].lstrip(" ")
        at += w
        if not (text.isascii() and text.isdigit()) or str(int(text)) != text or int(text) >= 2 ** 64: return None
        six.append(int(text))
    return six

def run(index, text):
    out = []
    for number in range(1, len(text) // 73 + 1):
        six = in_form(text[73 * (number - 1):73 * number])
        answer = 13, number
        if six:
            call, a, kind, hi, lo, value = six
            if call == 1 and not index.made:
                answer = index.format(a)
            elif index.made and 2 <= call <= 8:
                answer = {2: lambda: index.begin(a, kind, (hi, lo), value), 3: lambda: index.turn(a),
                          4: lambda: index.withdraw(a), 5: lambda: index.post(a), 6: lambda: index.merge(a),
                          7: index.raise_, 8: index.sweep}[call]()
        out.append(str(answer[0]).rjust(3) + str(answer[1]).rjust(21) + "\n")
    return "".join(out)

def load_index(pages=48):
    return Index(pages, lambda k: 1 <= k[0] <= 9999 and k[1] < 2 ** 32, lambda k: k)

def name_of(key):
    raw = key[0].to_bytes(8, "big") + key[1].to_bytes(8, "big")
    name = raw.rstrip(b"\0")
    return name if name and all(33 <= b <= 126 for b in name) else None

def place_index(pages=48):
    fold = lambda k: (k[0].to_bytes(8, "big") + k[1].to_bytes(8, "big")).upper()
    return Index(pages, lambda k: name_of(k) is not None, fold)

if __name__ == "__main__":
    new = {"load": load_index, "place": place_index}[sys.argv[1]]
    sys.stdout.write(run(new(), sys.stdin.read()))
