sheet read --names="motor, file, summer, repeated" examples/clock.sheet
