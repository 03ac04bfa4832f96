sheet clash examples/clock.sheet --names motor-runs,file-open,summer-hour,repeated-hour
