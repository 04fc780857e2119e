"""The crates of the repository, as crates.txt has them."""
import os
import shutil

TOP = os.path.dirname(os.path.dirname(os.path.realpath(__file__)))


def folder_of(name):
    return os.path.join(TOP, "crates", name)


def read_lines():
    """The line of each crate in crates.txt, by its name."""
    with open(os.path.join(TOP, "crates.txt"), encoding="utf-8") as file:
        lines = [line.strip() for line in file if ":" in line and not line.startswith("#")]
    return {line.split(":")[0].split()[0]: line for line in lines}


def read_crates():
    """Each crate with those of the repository that its line names."""
    lines = read_lines()
    return {name: [one for one in line.partition(":")[2].split() if one in lines] for name, line in lines.items()}


def with_below(names):
    """These crates and all that they stand on, each behind those that it names."""
    crates, found = read_crates(), []

    def visit(name):
        if name not in found:
            for one in crates[name]:
                visit(one)
            found.append(name)

    for name in names:
        visit(name)
    return found


def copy_part(name, part, room):
    """Copies a file or folder of a crate, where it is there, to the same place below a folder."""
    here, there = os.path.join(folder_of(name), part), os.path.join(room, "crates", name, part)
    os.makedirs(os.path.dirname(there), exist_ok=True)
    if os.path.isdir(here):
        shutil.copytree(here, there)
    elif os.path.exists(here):
        shutil.copy(here, there)


def copy_crates(names, parts, room):
    """Makes a folder the top of a repository that has these crates alone, and of each these files and folders."""
    lines = read_lines()
    os.mkdir(os.path.join(room, ".git"))
    with open(os.path.join(room, "crates.txt"), "w", encoding="utf-8") as file:
        file.writelines(lines[name] + "\n" for name in names)
    shutil.copy(os.path.join(TOP, "HANDLES"), room)
    for name in names:
        for part in parts:
            copy_part(name, part, room)
