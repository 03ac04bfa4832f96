sheet read examples/clock.sheet --names motor,,file,repeated
