long = "bytes 65537 " + "61" * 65_536 + "62"
print(f"0 1.0 {long}\n1 1.1 ok\nclosed 2 0 0")
print(f"0 1.0 bytes 65536 {'ff' * 65_536}\n1 1.1 {long}\n2 1.2 ok\nclosed 3 0 0")
print("script 2 Big")
