printf '\1\0\13\1\0\1\0\0\2\1\1' | sheet judge --bytes -
