sheet draw examples/clock.sheet --names motor,file,summer,repeated | diff - docs/clock.svg && echo "the same picture"
