sheet clash - <examples/w04.sheet
