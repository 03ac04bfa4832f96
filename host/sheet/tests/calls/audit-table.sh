printf '# a monitor\ntime,state\n2025-10-26 02:58,7\n2025-10-26 02:59,"motor, file, summer"\n2025-10-26 02:00,motor, file, repeated\n' | sheet audit examples/clock-year.txt -
