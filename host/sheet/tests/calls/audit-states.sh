printf '\0\0\0\3\0\0\0\7' | sheet audit examples/clock-year.sheet - --names motor,file,summer,repeated
