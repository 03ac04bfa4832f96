sheet judge --numbers examples/*.sheet
