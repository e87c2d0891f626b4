"""What the tools of this folder share: the crates that crates.txt lists, and the folder of the repository."""
import os

ROOT = os.path.dirname(os.path.dirname(os.path.realpath(__file__)))


def listed(root=ROOT):
    """Returns, for each crate of crates.txt, the crates of the repository that it stands on, in the order of the file."""
    named = {}
    with open(os.path.join(root, "crates.txt"), encoding="utf-8") as lines:
        for line in lines:
            name, colon, libraries = line.split("#")[0].partition(":")
            if colon:
                named[name.split()[0]] = libraries.split()
    return {name: [it for it in libraries if it in named] for name, libraries in named.items()}


def lowest_first(crates):
    """Returns the names of the crates, each behind those that it stands on."""
    ordered = []

    def add(name):
        if name not in ordered:
            for library in crates[name]:
                add(library)
            ordered.append(name)

    for name in crates:
        add(name)
    return ordered


def needed(crates, name):
    """Returns the part of the crates that this one needs, itself among them."""
    found, left = set(), [name]
    while left:
        one = left.pop()
        if one not in found:
            found.add(one)
            left += crates[one]
    return {it: libraries for it, libraries in crates.items() if it in found}
