sheet judge examples/clock-mended.txt --paper "$scratch/a.paper" && cat "$scratch/a.paper" && sheet check examples/clock-mended.sheet --names motor,file,summer,repeated "$scratch/a.paper"
