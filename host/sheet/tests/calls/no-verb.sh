sheet
