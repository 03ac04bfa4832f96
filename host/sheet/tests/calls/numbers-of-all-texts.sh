sheet judge --numbers examples/*.txt
