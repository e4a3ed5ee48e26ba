head -n 1006
