mkdir "$scratch/nobody" && cd "$scratch" && sheet class nobody
