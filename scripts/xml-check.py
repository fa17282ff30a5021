"""The streams in a folder beside the entries that were put (see scripts/xml-check)."""
import sys
import xml.etree.ElementTree as ElementTree
from pathlib import Path

SCHEMAS = "http://schemas.openxmlformats.org/package/2006/"
SOURCES = {"root.rels": "/", "part.rels": "/slide/a&b", "none.rels": "/slide/none"}


def fold(text):
    """A to Z to a to z and nothing else; bytes, so that they sort as bytes."""
    return text.encode().lower()  # of bytes, lower() maps ASCII letters only


def entries(file, root, namespace):
    """The elements below the root, each as its name and attributes."""
    tree = ElementTree.parse(file).getroot()
    scope = "{" + SCHEMAS + namespace + "}"
    assert tree.tag == scope + root, tree.tag
    assert not tree.attrib, tree.attrib
    found = []
    for element in tree:
        assert element.tag.startswith(scope), element.tag
        assert len(element) == 0 and not element.text, element.tag
        found.append((element.tag[len(scope) :], dict(element.attrib)))
    return found


def check(file, found, expected):
    assert found == expected, f"{file.name}:\n{found}\nis not\n{expected}"
    print(f"{file.name}: {len(found)} entries")


def main(folder):
    put = [line.split("\t") for line in (folder / "put").read_text("utf-8").splitlines()]

    expected = []
    for name, key in (("Default", "Extension"), ("Override", "PartName")):
        rows = sorted((row for row in put if row[0] == name), key=lambda row: fold(row[1]))
        assert rows, name
        expected += [(name, {key: row[1], "ContentType": row[2]}) for row in rows]
    check(folder / "types.xml", entries(folder / "types.xml", "Types", "content-types"), expected)

    for file, source in SOURCES.items():
        rows = [row for row in put if row[0] == "Relationship" and fold(row[1]) == fold(source)]
        rows.sort(key=lambda row: row[2].encode())
        expected = []
        for _, _, id, kind, target, *mode in rows:
            attributes = {"Id": id, "Type": kind, "Target": target}
            if mode:
                attributes["TargetMode"] = mode[0]
            expected.append(("Relationship", attributes))
        check(folder / file, entries(folder / file, "Relationships", "relationships"), expected)
    print("ok")


main(Path(sys.argv[1]))
