sheet check - -
