"""What a search has found: a text for each machine of the front, with the reason of each change, the programs that were compiled from C, a table,
and a plot."""
import os
import shutil

import explore
from designs import columns, model, plot

PLOT = "front.svg"


def comment(point, name, asked, names):
    """The lines above the text of a machine: of which search it is, what it came to, and each change with what it gave."""
    programs = " ".join(os.path.basename(path) for path in asked.programs)
    came = ", ".join(f"{program} {count}" for program, count in zip(names, point.trial.cycles))
    lines = [f"Machine {name} of: explore --search {os.path.basename(asked.machine)} --steps {asked.steps} --seed {asked.seed} -- {programs}",
             f"The area is about {point.area}, and the cycles are {point.slow:.3f} of those of the first machine: {came}."]
    if point.changes:
        lines.append("The changes, with the area and the cycles after each:")
    for at, (what, area, slow) in enumerate(point.changes, 1):
        lines.append(f"{at}. {what}" + ("" if area is None else f" (area {area}, cycles {slow:.3f})"))
    return [f"# {line}" for line in lines]


def write_machines(points, asked, names):
    """Writes the texts, and gives their paths."""
    paths = []
    for at, point in enumerate(points, 1):
        paths.append(os.path.join(asked.into, f"{at:02}.machine"))
        with open(paths[-1], "w", encoding="utf-8", errors="surrogateescape") as f:
            f.write("\n".join([*comment(point, f"{at:02}", asked, names), *model.lines_of(point.machine)]) + "\n")
    return paths


def keep_programs(trier, asked):
    """Copies the texts of what was in C."""
    for path, program in zip(asked.programs, trier.programs):
        if path.endswith(".c"):
            shutil.copy(program.text, os.path.join(asked.into, f"{os.path.basename(program.name)}.program"))


def images_of(trier, paths):
    """The images of the first program for some machines, with these."""
    found = []
    for at, path in enumerate(paths):
        image = os.path.join(trier.folder, f"{at}.front")
        trier.runs.run([trier.program, "build", path, trier.programs[0].text, image])
        found.append((path, image))
    return found


def measured(trier, paths, asked):
    """The columns of what yosys makes of each machine with the code of the first program, or None; and whether a key stopped it."""
    if not asked.flow:
        return None, False
    extra, stopped = columns.Columns(asked.flow, trier.runs, len(paths)), False
    if extra.synthesis and not trier.runs.is_stopped:
        try:
            extra.measure_all(images_of(trier, paths), trier.view)
        except KeyboardInterrupt:
            stopped = True
    explore.say_what_lacks(extra, [(path, trier.programs[0].name) for path in paths])
    return extra, stopped


def table(points, names, paths, extra):
    """The head and the rows: the first machine, and then the front."""
    heads = ["machine", "area", "cycles of first", "bits", *(f"{name} cycles" for name in names), *(extra.heads() if extra else [])]
    rows = []
    for at, (point, path) in enumerate(zip(points, paths)):
        more = extra.cells(at, point.trial.cycles[0]) if extra else []
        rows.append([path, point.area, f"{point.slow:.3f}", point.trial.bits, *point.trial.cycles, *more])
    return [heads, *rows]


def write_plot(first, points, names, asked):
    """Draws the front into a file."""
    places = [(point.area, point.slow, f"{at:02}") for at, point in enumerate(points, 1)]
    began = os.path.splitext(os.path.basename(asked.machine))[0]
    picture = plot.drawn((first.area, first.slow, began), places, f"{', '.join(names)}: from {began}", "area: LUTs and flip-flops, estimated",
                         f"cycles, of those of {began}")
    with open(os.path.join(asked.into, PLOT), "w", encoding="utf-8", errors="surrogateescape") as f:
        f.write(picture)


def write(search, asked, trier):
    """Writes and prints all that a search has found, and tells whether a key stopped it."""
    os.makedirs(asked.into, exist_ok=True)
    points, names, first = search.front.reported(), [program.name for program in trier.programs], search.front.first
    paths = write_machines(points, asked, names)
    keep_programs(trier, asked)
    write_plot(first, points, names, asked)
    extra, stopped = measured(trier, [asked.machine, *paths], asked)
    explore.print_rows(table([first, *points], names, [asked.machine, *paths], extra), asked.as_csv, (0,))
    return stopped
