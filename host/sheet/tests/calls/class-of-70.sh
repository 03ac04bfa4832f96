mkdir "$scratch/seventy"
for number in $(seq -w 1 70); do
  cp "examples/$(printf '%s\n' w04 w02 clock-mended mistake-1 w15 | sed -n "$((10#$number % 5 + 1))p").sheet" "$scratch/seventy/$number.sheet"
done
cd "$scratch/seventy" && sheet class .
