"""What is printed of the writes, the one answer to all reads, and the names of the reads."""
print("formatted 30a91a08-daae-48d1-ae75-69804e61d2ea")
for k in range(17):
    print(f"{k} 1.{k} ok")
print("closed 2 0 0")
print("bytes 1048576 " + "".join(f"{k:02x}" * 65536 for k in range(160, 176)))
for who in range(1, 17):
    for nth in range(4):
        print(f"{who}.{nth}")
