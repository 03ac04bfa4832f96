sheet --version | sed 's/commit [^,]*,/commit C,/; s/, [^,]*$/, toolchain/; s/sheet [0-9.]*,/sheet N,/'
