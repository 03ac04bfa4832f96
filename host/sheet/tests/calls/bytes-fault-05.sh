printf '\1\0\10\1\41\0\0\0' | sheet judge --bytes -
