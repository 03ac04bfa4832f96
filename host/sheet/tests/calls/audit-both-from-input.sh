sheet audit - -
