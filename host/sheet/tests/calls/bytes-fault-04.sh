printf '\1\0\10\0\0\0\0\0' | sheet judge --bytes -
