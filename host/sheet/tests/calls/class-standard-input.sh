sheet class - examples/w02.sheet <examples/w04.sheet
