sheet frobnicate
