mkdir "$scratch/wall" && cp examples/w0*.sheet examples/w0*.txt "$scratch/wall" && echo "no sheet by its name" >"$scratch/wall/notes"
cd "$scratch" && sheet class wall
