"""Computes the rows of crates/hb_resources_rows/src/held_lookups.rt again: the resources as plain dicts, every look-up a walk over all of
them, and what was held before each response kept as a copy.

usage: bench/tables/held_rows.py [FILE]: prints the rows whose answers differ; with `-` instead, reads questions from stdin
(`responses => question`) and prints them with their answers."""
import copy, ipaddress, re, sys

TOP = __file__.rsplit("/", 3)[0] if "/" in __file__ else "../.."

def ip_of(digits):
    b = bytes.fromhex(digits)
    a = ipaddress.ip_address(b)
    return a.ipv4_mapped or a if a.version == 6 else a

def record_of(word, kind):
    parts = [p.partition("=") for p in word.split(",")]
    what, rest = parts[0][0], [(k, v) for k, _, v in parts[1:]]
    if what not in "wsp" or any(k == "hex" for k, _ in rest):
        return None
    r = {"what": what, "ip": [], "at": [], "serves": [], "asks": [], "net": "", "ns": "", "node": "", "name": "", "scope": "", "rules": 0}
    for k, v in rest:
        if k == "ip": r["ip"].append(ip_of(v))
        elif k == "at": n, d = v.split("/"); r["at"].append((n, ip_of(d)))
        elif k in ("serves", "asks"): r[k].append(v)
        elif k in ("namespace", "selector"): r["scope"] = k
        elif k == "rules": r["rules"] = int(v)
        else: r[k] = v
    return r

def by_name(d):
    return sorted(d.items(), key=lambda e: e[0].encode())

class Held:
    def __init__(self):
        self.now = {"a": {}, "z": {}}; self.before = copy.deepcopy(self.now); self.changed = set()
    def apply(self, words):
        kind, *rest = words.split()
        self.before = copy.deepcopy(self.now); self.changed = set()
        held = self.now[kind]
        for word in rest:
            if word[0] == "~" and held.pop(word[1:], None) is not None:
                self.changed.add((kind, word[1:]))
        for word in rest:
            if word[0] in "~!": continue
            name, _, record = word.partition(":")
            name, _, version = name.partition("@")
            r = record_of(record, kind)
            if r is None or (r["what"] == "p") != (kind == "z"): continue
            r["version"] = version or "1"; held[name] = r; self.changed.add((kind, name))

def workload_at(h, ip):
    return next(((n, r) for n, r in by_name(h["a"]) if r["what"] == "w" and r["net"] == "net" and ip in r["ip"]), None)

def known(h, ip):
    f = workload_at(h, ip)
    return f if f and f[1]["node"] == "n1" else None

def service_at(h, ip):
    return next(((n, r) for n, r in by_name(h["a"]) if r["what"] == "s" and ("net", ip) in r["at"]), None)

def policies(h, w):
    return [(n, p) for n, p in by_name(h["z"]) if not p["scope"] or (p["scope"] == "namespace" and p["ns"] == w["ns"])
            or (p["scope"] == "selector" and p["ns"] + "/" + p["name"] in w["asks"])]

def touched(held, ip):
    for h in (held.before, held.now):
        f, k = workload_at(h, ip), known(h, ip)
        if f and ("a", f[0]) in held.changed: return True
        if k and any(("z", n) in held.changed for n, _ in policies(h, k[1])): return True
    return False

def answer(responses, question):
    held = Held()
    for words in responses.split("|"):
        if words.strip(): held.apply(words)
    h, (what, _, words) = held.now, question.partition(" ")
    dash = lambda t: t or "-"
    if what in ("workload", "known", "service"):
        f = {"workload": workload_at, "known": known, "service": service_at}[what](h, ipaddress.ip_address(words))
        told = [f[0]] if f else []
    elif what == "policies":
        told = [dash(p["ns"]) + "/" + dash(p["name"]) + ("+%d" % p["rules"] if p["rules"] else "")
                for _, p in policies(h, workload_at(h, ipaddress.ip_address(words))[1])]
    elif what == "endpoints":
        ns, host = ("" if t == "-" else t for t in words.split(" "))
        told = [n for n, r in by_name(h["a"]) if r["what"] == "w" and r["net"] == "net" and ns + "/" + host in r["serves"]]
    elif what == "versions": told = [n + "@" + r["version"] for n, r in by_name(h[words])]
    elif what == "touched": told = ["yes" if touched(held, ipaddress.ip_address(words)) else "no"]
    elif what == "nth":
        rows = [k + "." + n + "@" + r["version"] + " " + {"w": "workload", "s": "service", "p": "policy"}[r["what"]]
                for k in "az" for n, r in by_name(h[k])]
        told = rows[int(words):][:1]
    else: told = [str(len(h["a"]) + len(h["z"]))]
    return " ".join(told) or "none"

if __name__ == "__main__":
    if sys.argv[1:] == ["-"]:
        for line in sys.stdin:
            line = line.rstrip("\n")
            if not line or line[0] == "#": print(line); continue
            responses, _, question = line.partition("=> ")
            print(line + " = " + answer(responses, question.strip()))
    else:
        text = open(sys.argv[1] if sys.argv[1:] else TOP + "/crates/hb_resources_rows/src/held_lookups.rt").read()
        rows = re.search(r'const ROWS: &str = "\\\n(.*?)";', text, re.S).group(1).split("\n")
        wrong = 0
        for row in rows:
            if row.startswith("#"): continue
            responses, _, asked = row.partition("=> ")
            question, _, want = asked.rpartition(" = ")
            got = answer(responses, question)
            if got != want: wrong += 1; print(row, "but", got)
        print(len([r for r in rows if not r.startswith("#")]), "rows,", wrong, "differ")
