printf '\1\0\11\1\0\0\0\0\0' | sheet judge --bytes -
