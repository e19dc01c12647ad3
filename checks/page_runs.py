"""The runs of examples/, and of code that is written here, whose pages checks/views/play and checks/outside/page look at."""
# A machine, a source, the words of the data space, the input if any, how many cycles are asked for, and how many are made before, if not none.
RUNS = [
    ("teaching", "countdown.assembly", "/dev/null", None, 100),
    ("three_buses", "dot_product.program", "examples/dot_product.input", None, 1000),
    ("three_buses", "dot_product.program", "examples/dot_product.input", None, 7),
    ("three_buses", "dot_product.program", "examples/dot_product.input", None, 0),
    ("three_buses", "sort.program", "examples/sort.input", None, 399),
    ("three_buses", "sort.program", "examples/sort.input", None, 400),
    ("three_buses", "sort.program", "examples/sort.input", None, 10000),
    ("three_buses", "swap.assembly", "/dev/null", None, 50),
    ("few_registers", "squares.program", "/dev/null", None, 500),
    ("large", "squares.program", "/dev/null", None, 150),
    ("one_bus", "seven.program", "/dev/null", None, 10),
    ("with_input", "filter.program", "/dev/null", "examples/filter.stream", 500),
    ("with_input", "filter.program", "/dev/null", None, 500),
    ("three_buses", "dot_product.program", "examples/dot_product.input", None, 100, 7),
    ("three_buses", "dot_product.program", "examples/dot_product.input", None, 0, 7),
    ("three_buses", "dot_product.program", "examples/dot_product.input", None, 100, 37),
    ("three_buses", "dot_product.program", "examples/dot_product.input", None, 100, 2**48 - 1),
    ("three_buses", "sort.program", "examples/sort.input", None, 500, 150),
    ("three_buses", "sort.program", "examples/sort.input", None, 2**48 - 1, 1),
    ("few_registers", "squares.program", "/dev/null", None, 30, 40),
    ("with_input", "filter.program", "/dev/null", "examples/filter.stream", 500, 100),
    ("with_input", "filter.program", "/dev/null", None, 500, 100),
]
# Code that faults, in its first cycle and later, and code whose instructions end.
WRITTEN = [
    ("three_buses", "R.1 -> R.2 , ... , ... ;", 5),
    ("three_buses", "1 -> R.1 , 6 -> MUL.o , 7 -> MUL.t.mul ; R.1 -> R.2 , MUL.r -> R.3 , ... ;", 9),
    ("three_buses", "1 -> G.0 , ... , ... ; !G.0 1 -> R.1 , ?G.0 2 -> R.2 , 5 -> IO.t.out ;", 9),
    ("three_buses", "1 -> R.1 , 6 -> MUL.o , 7 -> MUL.t.mul ; R.1 -> R.2 , MUL.r -> R.3 , ... ;", 9, 1),
    ("three_buses", "1 -> R.1 , 6 -> MUL.o , 7 -> MUL.t.mul ; R.1 -> R.2 , MUL.r -> R.3 , ... ;", 9, 2),
    ("three_buses", "1 -> R.1 , 6 -> MUL.o , 7 -> MUL.t.mul ; R.1 -> R.2 , MUL.r -> R.3 , ... ;", 0, 20),
]
