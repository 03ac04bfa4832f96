sheet class --names a examples/w01.sheet
