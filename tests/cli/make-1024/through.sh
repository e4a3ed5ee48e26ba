head -n 4
