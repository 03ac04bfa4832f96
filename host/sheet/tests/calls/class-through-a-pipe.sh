sheet class <(cat examples/w04.txt) | sed "s,^[^ ]* *,," 
