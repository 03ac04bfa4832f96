sheet read examples/clock.sheet --names motor,file,step,repeated
