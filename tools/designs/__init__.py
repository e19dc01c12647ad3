"""From machines and programs to a choice: what a machine costs in hardware, machines that are like it, and what a program lacks on it."""
