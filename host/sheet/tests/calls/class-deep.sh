mkdir -p "$scratch/deep/inner/most" "$scratch/deep/other" && cd "$scratch/deep" && ln -s .. inner/loop && mkfifo other/pipe
printf 'letters a\n' | tee sheet.txt inner/sheet inner/most/Sheet.TXT >other/.hidden
sheet class . && sheet class --deep .
