"""A debugger's session by the source: the proved `prompt` of an image, with what `stages` tells of the program that it came of."""
