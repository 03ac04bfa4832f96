sheet class - -
