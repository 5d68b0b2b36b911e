"""Groups the functions of crates/*/src whose bodies differ only in names and numbers."""
import glob, re, collections
KEEP = set("fn let mut if else for in return match while loop as true false self Self Ok Err Some None".split())
shapes = collections.defaultdict(list)
for path in sorted(glob.glob("crates/*/src/*.rt")):
    lines = open(path).read().split("\n")
    i = 0
    while i < len(lines):
        m = re.match(r"( *)(pub(\([a-z]+\))? )?fn (\w+)", lines[i])
        if not m:
            i += 1
            continue
        indent, name = m.group(1), m.group(4)
        j = i
        while j < len(lines) and lines[j] != indent + "}" and not lines[j].endswith(";"):
            j += 1
        body = []
        started = False
        for line in lines[i:j]:
            if line == indent + "{" or (not started and line.endswith("{") and "requires" not in line and "ensures" not in line):
                started = True
                continue
            if started:
                body.append(line)
        text = re.sub(r"//.*", "", "\n".join(body))
        tokens = re.findall(r"\w+|[^\w\s]+", text)
        shape = " ".join(t if t in KEEP or not re.match(r"\w", t) else "x" for t in tokens)
        if len(tokens) >= 4:
            shapes[shape].append(f"{path.split('/')[1]}::{name}")
        i = j + 1
for shape, names in sorted(shapes.items(), key=lambda p: -len(p[1])):
    if len(names) > 1:
        print(len(names), ", ".join(names), "|", shape[:90])
