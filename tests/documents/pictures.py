"""Pictures of recipes: each is what tools/draw makes of its recipe now, and what draw makes of a
recipe says what stands there."""
import re
import subprocess
import sys
import tomllib
import xml.etree.ElementTree as xml
from collections import Counter

# A picture, its recipe, and a report of it where the picture has its figures.
PICTURES = {
    "examples/chain/chain.svg": ("examples/chain/chain.toml", "tests/chain/chain.report"),
    "examples/tinycc/seed.svg": ("examples/tinycc/seed.toml", "tests/tinycc/seed.report"),
    "examples/tinycc/tinycc.svg": ("examples/tinycc/tinycc.toml",),
    "examples/x86-64/x86-64.svg": ("examples/x86-64/x86-64.toml",),
}
NODE = re.compile(r'    "([^"]*)" \[label=<(.*)> shape=')
EDGE = re.compile(r'    "([^"]*)" -> "([^"]*)" \[')
TAG = re.compile(r"<[^>]*>")
LINES = re.compile(r"[\d,]+ lines")


def graph(root, *words):
    """The nodes of a drawn recipe with their texts, and the edges."""
    call = [sys.executable, root / "tools/draw", *(root / it for it in words)]
    drawn = subprocess.run(
        call, cwd=(root / words[0]).parent, capture_output=True, text=True, check=True
    ).stdout
    nodes = {
        name: [TAG.sub("", it) for it in text.split("<br/>")] for name, text in NODE.findall(drawn)
    }
    return nodes, set(EDGE.findall(drawn))


def shown(picture):
    """The titles and the texts of a picture that Graphviz made."""
    tree = xml.parse(picture).getroot()
    titles = Counter(it.text for it in tree.iter("{http://www.w3.org/2000/svg}title"))
    return titles - Counter(["recipe"]), Counter(
        it.text for it in tree.iter("{http://www.w3.org/2000/svg}text")
    )


def missing(recipe, nodes, edges):
    """What a recipe's tables say and its graph does not."""
    names = {
        name: node for node in nodes if not node.startswith(("source ", "is ", "assumes "))
        for name in node.split(" ")
    }
    wanted = set()
    for source in recipe.get("source", []):
        wanted |= {(names.get(it), f"source {source['name']}") for it in source["files"]}
    for stage in recipe["stage"]:
        wanted |= {(names.get(stage["program"]), stage["name"])}
        checked = f"source {stage['check']}" if "check" in stage else None
        wanted |= {(checked, stage["name"])} if checked else set()
        for node in (names.get(it["from"]) for it in stage.get("files", [])):
            wanted |= set() if (node, checked) in edges else {(node, stage["name"])}
    compare = recipe["compare"]
    for name in compare.get("stages") or [compare["stage"]]:
        wanted |= {(name, f"is {name}"), (f"is {name}", compare["binary"])}
    for table in ("input", "stage"):
        yield from (f"no node {it['name']}" for it in recipe[table] if it["name"] not in names)
    yield from (
        f"no node source {it['name']}" for it in recipe.get("source", [])
        if f"source {it['name']}" not in nodes
    )
    yield from (f"no edge from {start} to {end}" for start, end in sorted(wanted - edges, key=str))


def faults(root):
    """Each fault, after the name of its file."""
    for path in sorted(root.glob("examples/*/*.toml")):
        recipe = tomllib.loads(path.read_text())
        yield from (
            f"{path.relative_to(root)}: drawn with {it}"
            for it in missing(recipe, *graph(root, path.relative_to(root)))
        )
    for picture, words in PICTURES.items():
        nodes, edges = graph(root, *words)
        titles, texts = shown(root / picture)
        wanted = Counter([*nodes, *(f"{start}->{end}" for start, end in edges)])
        drawn = Counter(it for lines in nodes.values() for it in lines)
        # How many lines a text has is drawn where it lies here, and that of TinyCC is not in the
        # repository.
        more = texts - drawn
        if titles != wanted or drawn - texts or not all(map(LINES.fullmatch, more)):
            yield f"{picture}: not what tools/draw {' '.join(words)} makes"
