printf '\1\0\10\1\1\0\0\0' | sheet judge --bytes -
