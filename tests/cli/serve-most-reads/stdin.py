"""Four reads of the whole file by each of 16 sessions."""
for k in range(64):
    print(f"{k % 16 + 1} read /m 0 1048576")
