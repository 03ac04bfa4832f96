printf '\xef\xbb\xbf"Time";"State"\r\n"26.10.2025; 02:59";3\r\n;13\r\n' | sheet audit examples/clock-year.txt -
