printf '\xff\xfel\0e\0t\0' | sheet judge -
