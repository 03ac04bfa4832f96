sheet judge examples/clock.sheet --names motor,file,summer,repeated
