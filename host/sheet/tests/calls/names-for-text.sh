sheet read examples/clock.txt --names motor,file,summer,repeated
