head -n 1007
