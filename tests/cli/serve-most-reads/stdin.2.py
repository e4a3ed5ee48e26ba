"""A file of a mebibyte, of 16 bytes that stand 65,536 times each."""
print("1 create /m")
for k in range(16):
    print(f"1 write /m {k * 65536} fill:{k + 160:02x}:65536")
