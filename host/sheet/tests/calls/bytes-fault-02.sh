printf '\2\0\10\1\0\0\0\0' | sheet judge --bytes -
